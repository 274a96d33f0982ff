// The module of WebAssembly, whose functions are those of cvss.h. Its bytes are in this package, compressed and as digits
// of base 85, so that it is compiled when it is first needed, without a file or a request.

import { DIGITS, LENGTH, TEXT } from "./generated.mjs";
import { inflate } from "./inflate.mjs";
import { start, wasm } from "./memory.mjs";

let compiled = null;

// Five digits are four bytes, the first of them the highest.
function bytes() {
  const values = new Uint8Array(128);
  for (let digit = 0; digit < 85; digit += 1) values[DIGITS.charCodeAt(digit)] = digit;
  const words = new DataView(new ArrayBuffer((TEXT.length / 5) * 4));
  for (let at = 0; at < TEXT.length; at += 5) {
    let word = 0;
    for (let next = at; next < at + 5; next += 1) word = word * 85 + values[TEXT.charCodeAt(next)];
    words.setUint32((at / 5) * 4, word);
  }
  return inflate(new Uint8Array(words.buffer), LENGTH);
}

export function wasmModule() {
  return (compiled ??= new WebAssembly.Module(bytes()));
}

async function compile(source) {
  if (source instanceof WebAssembly.Module) return source;
  if (typeof Response === "undefined" || !(source instanceof Response)) return WebAssembly.compile(source);
  const isStreamed = source.headers.get("content-type") === "application/wasm";
  return isStreamed ? WebAssembly.compileStreaming(source) : WebAssembly.compile(await source.arrayBuffer());
}

export async function init(source) {
  if (wasm !== null) return;
  const module = await compile((await source) ?? bytes());
  if (wasm !== null) return;
  start(module);
  compiled = module;
}
