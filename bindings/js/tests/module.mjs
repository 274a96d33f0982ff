// Tries the module of the package: what it has, large texts, memory, workers and each source of init.
//
// Usage: node --expose-gc module.mjs ROOT, the folder of the checkout. The package is the one that Node finds by its name.

import assert from "node:assert/strict";
import { readFileSync } from "node:fs";
import { createRequire } from "node:module";
import { join } from "node:path";
import { Worker } from "node:worker_threads";

import * as imported from "cvss-proved";
import { Vector, find, init, score, scoreLine, version, wasmModule } from "cvss-proved";
import { TEXT, V3, V4, root, stored } from "./common.mjs";

function checkSizes() {
  const megabyte = "x".repeat(1 << 20);
  const wide = "é".repeat(1 << 20);
  for (const text of [megabyte, wide]) {
    const { error } = Vector.parse(text);
    // what differs is not printed
    assert(error.value === text && error.message === `invalid CVSS metric group component: \`${text}\``);
  }
  // about where a string no longer fits into the memory in which most are encoded
  for (const size of [10_921, 10_922, 10_923, 16_384, 16_385, 21_845, 21_846, 32_768, 32_769, 65_536]) {
    for (const text of ["x", "é", "€"].map((letter) => letter.repeat(size))) {
      assert(Vector.parse(text).error.value === text, `${size}`);
    }
  }
  assert.deepEqual([...find(wide + V3)].map(({ index }) => index), [1 << 20]);
  const many = [...find(`${V3}, `.repeat(100_000))];
  assert.equal(many.length, 100_000);
  const last = many[99_999];
  assert.deepEqual([last.index, last.text, last.vector.score], [99_999 * (V3.length + 2), V3, 9.8]);
  assert.equal(score(V3), 9.8);
}

// A million calls leave no memory behind them.
function checkMemory() {
  const texts = [TEXT, V3, `${V4}/E:P`, "CVSS:3.1/AV:q"];
  const used = () => {
    globalThis.gc();
    const { heapUsed, external, arrayBuffers } = process.memoryUsage();
    return heapUsed + external + arrayBuffers;
  };
  const call = (count) => {
    for (let turn = 0; turn < count; turn++) score(texts[turn & 3]);
    for (let turn = 0; turn < count / 100; turn++) scoreLine(texts[turn & 3]) && Vector.parse(texts[turn & 3]);
  };
  call(1_000);
  const before = used();
  call(1_000_000);
  const grown = used() - before;
  assert(grown < 1 << 20, `${grown} bytes more after a million calls`);
}

// The functions of cvss.h that the package does not call, and that its module does not have.
const LEFT_OUT = [
  "cvss_metrics", "cvss_numbers", "cvss_rounded", "cvss_score_lines", "cvss_temporal_with_impact", "cvss_values",
];

// The module has the other functions of cvss.h, its memory and where free memory begins, and imports nothing.
function checkModule() {
  const header = readFileSync(join(root, "bindings/c/cvss.h"), "utf8");
  const functions = [...header.matchAll(/^[a-z].* (cvss_[a-z_]*)\(/gm)].map(([, name]) => name);
  const exported = WebAssembly.Module.exports(wasmModule()).map(({ name }) => name);
  const called = functions.filter((name) => !LEFT_OUT.includes(name));
  assert.equal(called.length + LEFT_OUT.length, functions.length);
  assert.deepEqual(exported.sort(), [...called, "memory", "__heap_base"].sort());
  assert.deepEqual(WebAssembly.Module.imports(wasmModule()), []);
}

// The stack, which ends at address 0, stays far above the first 1,024 bytes: the module was made for that.
function checkStack() {
  const { memory, __heap_base: base, ...functions } = new WebAssembly.Instance(wasmModule()).exports;
  memory.grow(4);
  const octets = new Uint8Array(memory.buffer);
  const numbers = new Int32Array(memory.buffer);
  const free = (base.value + 7) & ~7;
  const [vector, error, match, metrics] = [0, 64, 104, 1024].map((offset) => free + offset);
  const [text, buffer] = [free + 2048, free + (1 << 16)];
  numbers.set([64], vector >> 2);
  numbers.set([40], error >> 2);
  const room = [buffer, 1 << 16];
  const own = [metrics, new TextEncoder().encodeInto("E:U/RC:C", octets.subarray(metrics)).written];
  for (const line of stored) {
    octets.set(line, text);
    numbers.set([32, 0, 0, 0], match >> 2);
    const given = [text, line.length];
    const common = [...given, 1, error, ...room];
    const calls = {
      cvss_parse: [...given, 1, vector, error, ...room], cvss_score: [...given, 1],
      cvss_with_metrics: [...given, ...own, 1, error, ...room], cvss_from_metrics: [31, ...given, 1, error, ...room],
      cvss_without_not_defined: common, cvss_record: common, cvss_explain: common, cvss_score_line: [...given, 1, ...room],
      cvss_find: [...given, match], cvss_severity: [31, 98],
    };
    assert.deepEqual(Object.keys(functions).sort(), Object.keys(calls).sort());
    for (const [name, call] of Object.entries(functions)) {
      assert.equal(call.length, calls[name].length, name);
      call(...calls[name]);
    }
  }
  const lowest = octets.findIndex((octet) => octet !== 0);
  assert(lowest > 1 << 19 && lowest < 1 << 20, `the stack was used down to ${lowest}`);
}

// A program that imports the package and one that requires it have the same classes; a worker has its own.
async function checkModules() {
  const required = createRequire(import.meta.url)("cvss-proved");
  assert.equal(required.Vector, Vector);
  assert.deepEqual(Object.keys(required).sort(), Object.keys(imported).sort());
  const { version: expected } = JSON.parse(readFileSync(join(root, "bindings/js/package.json"), "utf8"));
  assert.equal(version, expected);
  const code = `const { parentPort, workerData } = require("node:worker_threads");
    const cvss = require("cvss-proved");
    cvss.init(workerData).then(() => parentPort.postMessage(cvss.score("${V3}")));`;
  for (const workerData of [undefined, wasmModule()]) {
    const worker = new Worker(code, { eval: true, workerData });
    assert.equal(await new Promise((resolve, reject) => worker.on("message", resolve).on("error", reject)), 9.8);
  }
}

// Each source of the module, in a worker in which nothing was compiled before.
async function checkSources() {
  const code = `const { readFileSync } = require("node:fs");
    const { parentPort } = require("node:worker_threads");
    const cvss = require("cvss-proved");
    const bytes = readFileSync(require.resolve("cvss-proved/cvss.wasm"));
    const type = { headers: { "content-type": "application/wasm" } };
    const sources = { bytes, module: new WebAssembly.Module(bytes), response: new Response(bytes),
      streamed: Promise.resolve(new Response(bytes, type)), none: undefined };
    const empty = new Uint8Array([0, 97, 115, 109, 1, 0, 0, 0]);
    cvss.init(NAME === "empty" ? empty : sources[NAME]).then(() => parentPort.postMessage(cvss.score("${V3}")),
      (error) => parentPort.postMessage(error.name + ": " + error.message));`;
  for (const name of ["bytes", "module", "response", "streamed", "none", "empty"]) {
    const worker = new Worker(code.replaceAll("NAME", JSON.stringify(name)), { eval: true });
    const said = await new Promise((resolve, reject) => worker.on("message", resolve).on("error", reject));
    assert.equal(said, name === "empty" ? "TypeError: this module is not cvss.wasm" : 9.8, name);
  }
  await init();
}

checkSizes();
checkMemory();
checkModule();
checkStack();
await checkModules();
await checkSources();
