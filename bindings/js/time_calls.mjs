// Prints the nanoseconds that a call takes, over the lines of standard input that are accepted; and that glue takes as one
// would first write it, where bindings/wasm/build has left the module with 64-bit pointers.

import { existsSync, readFileSync } from "node:fs";

import cvss from "./cvss.js";

const ROUNDS = 50;
const LOWERED = new URL("../out/wasm64/lowered.wasm", import.meta.url);

// Encodes a text, copies it in, gives pointers and lengths as BigInt, copies the numbers and the text out, and decodes it.
function naiveGlue() {
  const { exports } = new WebAssembly.Instance(new WebAssembly.Module(readFileSync(LOWERED)));
  exports.memory.grow(1);
  const vector = Number(exports.__heap_base.value);
  const error = vector + 64;
  const first = error + 64;
  new Uint32Array(exports.memory.buffer).set([64], vector / 4);
  new Uint32Array(exports.memory.buffer).set([40], error / 4);
  return (text) => {
    const bytes = new TextEncoder().encode(text);
    const buffer = first + bytes.length;
    new Uint8Array(exports.memory.buffer).set(bytes, first);
    const size = BigInt(bytes.length);
    const structs = [BigInt(vector), BigInt(error)];
    const length = exports.cvss_parse(BigInt(first), size, 0, ...structs, BigInt(buffer), size);
    const [, version, tenths] = new Int32Array(exports.memory.buffer.slice(vector, vector + 64));
    const canonical = exports.memory.buffer.slice(buffer, buffer + Number(length));
    return { text: new TextDecoder().decode(canonical), version, score: tenths / 10 };
  };
}

function printTime(name, items, call) {
  const taken = () => {
    const start = performance.now();
    for (const item of items) call(item);
    return performance.now() - start;
  };
  // of the rounds the fastest, which other programs on the machine have disturbed least
  const least = Math.min(...Array.from({ length: ROUNDS }, taken));
  console.log(`JavaScript: ${name} ${Math.round((1e6 * least) / items.length)} ns (${items.length} lines)`);
}

const accepted = readFileSync(0, "latin1").split("\n").filter((line) => cvss.score(line) !== null);
const vectors = accepted.map((line) => new cvss.Vector(line));
if (existsSync(LOWERED)) printTime("naive glue", accepted, naiveGlue());
printTime("score", accepted, (line) => cvss.score(line));
printTime("Vector", accepted, (line) => new cvss.Vector(line).score);
printTime("Vector.parse, rejected", accepted, (line) => cvss.Vector.parse(`${line}/XX:N`).ok);
printTime("metrics", vectors, (vector) => vector.metrics);
printTime("withMetrics", vectors, (vector) => vector.withMetrics({ CR: "H", AR: "L" }));
printTime("record", vectors, (vector) => vector.record());
printTime("explain", vectors, (vector) => vector.explain());
printTime("scoreLine", accepted, (line) => cvss.scoreLine(line));
