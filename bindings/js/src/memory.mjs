// The memory of the module: texts go in, results come out.
//
// Free memory begins with the structs of cvss.h, which functions write. After them are the texts of a call, and then its
// buffer. A call has ended before the next begins, so all calls share this memory. It grows for a large text.
//
// Other code may have added properties to Object.prototype and Array.prototype, such as setters. So the package reads no
// property that an object may lack, and assigns none that it lacks: no array is pushed to, none is destructured (which reads
// `return`), and options and descriptors have no prototype.

import { wasmModule } from "./module.mjs";

const PAGE = 65536;
const ROOM = PAGE / 2; // bytes in which most strings are encoded
// The structs: where each begins after the beginning of free memory, and its size. A size_t in them has 64 bits.
const VECTOR = 0;
const VECTOR_SIZE = 64;
const ERROR = 64;
const ERROR_SIZE = 40;
const MATCH = 104;
const MATCH_SIZE = 32;
const UNWANTED = 136; // its size is 0, so no function writes it
const STRUCTS = 256; // bytes for all of them

export let wasm = null; // the exports of the one instance
export let octets = null; // its memory, as bytes
export let numbers = null; // the same memory, as 32-bit numbers
export let vectorAt = 0; // the address of the struct CvssVector
export let errorAt = 0; // of CvssError
export let matchAt = 0; // of CvssMatch
export let unwantedAt = 0; // of a struct in place of one that is not wanted
export let first = 0; // the address of the first text
let room = null; // the memory from there on, where most strings are encoded

const typedArray = Object.getPrototypeOf(Uint8Array.prototype);
const kindOf = Object.getOwnPropertyDescriptor(typedArray, Symbol.toStringTag).get;
const lengthOf = Object.getOwnPropertyDescriptor(typedArray, "length").get;
const encoder = new TextEncoder();
const decoder = new TextDecoder("utf-8", { __proto__: null, fatal: false, ignoreBOM: true });

function look() {
  octets = new Uint8Array(wasm.memory.buffer);
  numbers = new Int32Array(wasm.memory.buffer);
  room = octets.subarray(first, first + ROOM);
}

export function start(module) {
  const { exports } = new WebAssembly.Instance(module);
  if (typeof exports.cvss_parse !== "function") throw new TypeError("this module is not cvss.wasm");
  wasm = exports;
  const free = (wasm.__heap_base.value + 7) & ~7;
  vectorAt = free + VECTOR;
  errorAt = free + ERROR;
  matchAt = free + MATCH;
  unwantedAt = free + UNWANTED;
  first = free + STRUCTS;
  wasm.memory.grow(1);
  look();
  // no function changes a size
  numbers[vectorAt >> 2] = VECTOR_SIZE;
  numbers[errorAt >> 2] = ERROR_SIZE;
  numbers[matchAt >> 2] = MATCH_SIZE;
}

export function ready() {
  if (wasm === null) start(wasmModule());
}

// Makes room up to an address.
export function reserve(end) {
  if (end <= octets.length) return;
  try {
    wasm.memory.grow(Math.ceil((end - octets.length) / PAGE));
  } catch {
    throw new RangeError(`this text is too long: there is no memory for ${end - first} bytes`);
  }
  look();
}

function putBytes(bytes, address) {
  if (kindOf.call(bytes) !== "Uint8Array") {
    throw new TypeError(`a text is a string or a Uint8Array, not ${bytes === null ? "null" : typeof bytes}`);
  }
  const length = lengthOf.call(bytes);
  reserve(address + length);
  octets.set(bytes, address);
  return length;
}

// Copies a string as UTF-8, with U+FFFD in place of a lone surrogate.
export function putEncoded(text, address) {
  const most = 3 * text.length;
  reserve(address + most);
  // no more than is needed: engines encode nothing into 2 GiB
  const part = address === first && most <= ROOM ? room : octets.subarray(address, address + most);
  const { read, written } = encoder.encodeInto(text, part);
  if (read !== text.length) throw new RangeError(`this text is too long: ${read} of its ${text.length} units were encoded`);
  return written;
}

// Copies a text to an address. Returns its length in bytes.
export function put(text, address) {
  if (typeof text !== "string") return putBytes(text, address);
  const length = putEncoded(text, address);
  // what is not ASCII may have a lone surrogate, and so no UTF-8: then it becomes a byte that is no UTF-8 either
  if (length === text.length || !/\p{Surrogate}/u.test(text)) return length;
  octets[address] = 0xff;
  return 1;
}

// A text in memory, which is UTF-8. Where it is longer than a string can be, Node throws an error, and Chromium gives an
// empty string; a unit of UTF-16 is at most three bytes.
export function decoded(address, length) {
  let text = "";
  try {
    text = decoder.decode(octets.subarray(address, address + length));
  } catch {}
  if (3 * text.length < length) {
    throw new RangeError(`this text is too long: no string holds the ${length} bytes of the result`);
  }
  return text;
}

// Calls a function whose last arguments are a buffer and its size: the memory after the texts, which end at an address.
// Returns the length of what it has written there.
export function call(name, end, ...words) {
  const length = wasm[name](...words, end, octets.length - end) >>> 0;
  if (length <= octets.length - end) return length;
  reserve(end + length);
  return wasm[name](...words, end, octets.length - end) >>> 0;
}
