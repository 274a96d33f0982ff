// Tries what other code in the same program can do: it shares memory, and adds properties to Object.prototype and
// Array.prototype. No answer changes.
//
// Usage: node hostile.mjs ROOT, the folder of the checkout. The package is the one that Node finds by its name.

import assert from "node:assert/strict";
import { readFileSync } from "node:fs";
import { createRequire } from "node:module";
import vm from "node:vm";

import * as cvss from "cvss-proved";
import { Vector, find, score, scoreLine } from "cvss-proved";
import { INCOMPLETE, TEXT, V3, V4, stored } from "./common.mjs";

const OTHER = V3.replace("AV:N", "AV:P");
const MORE = ["", `${V3}/RL:`, `${V4}/E:P/CR:L`, V3.slice(0, -4), `${V3}/E:P/CR:L`];
const TEXTS = [...new Set(stored.map(String))].filter((_, row) => row % 25 === 0).concat(MORE);

// Another thread can write to a text over shared memory at any time: here as soon as it has been copied once.
function whileChanging(given, changed, call) {
  const bytes = new Uint8Array(new SharedArrayBuffer(given.length));
  const typedArray = Object.getPrototypeOf(Uint8Array.prototype);
  const { set } = typedArray;
  set.call(bytes, Buffer.from(given));
  typedArray.set = function (source, ...rest) {
    set.call(this, source, ...rest);
    if (source === bytes) set.call(bytes, Buffer.from(changed));
  };
  try {
    return call(bytes);
  } finally {
    typedArray.set = set;
  }
}

function checkSharedMemory() {
  assert.notEqual(score(OTHER), score(V3));
  const vector = whileChanging(V3, OTHER, (bytes) => new Vector(bytes));
  assert.deepEqual([vector.given, vector.text, vector.score, vector.severity], [V3, V3, 9.8, "critical"]);
  class Own extends Vector {}
  assert.equal(whileChanging(V3, OTHER, (bytes) => new Own(bytes)).given, V3);
  // the error is that of the text that was copied, and a text that was accepted stays so
  const rejected = V3.replace("AV:N", "AV:q");
  const { error } = whileChanging(rejected, `${V3.slice(0, -1)}Q`, (bytes) => Vector.parse(bytes));
  assert.deepEqual([error.kind, error.metric, error.value], ["invalid value", "AV", "Q"]);
  assert.equal(error.message, "invalid CVSSv3 AV (Attack Vector) metric: `Q`");
  assert.equal(whileChanging(V3, rejected, (bytes) => Vector.parse(bytes)).ok, true);
  assert.equal(whileChanging(rejected, V3, (bytes) => Vector.parse(bytes)).error?.kind, "invalid value");
  assert.equal(whileChanging(V3, rejected, (bytes) => scoreLine(bytes)), `${V3} 9.8 critical`);
  assert.deepEqual(whileChanging(V3, OTHER, (bytes) => [...find(bytes)].map(({ text }) => text)), [V3]);
}

// An engine that encodes a string in part, as those do that encode nothing into 2 GiB, gives an error and no wrong answer.
function checkEncoding() {
  const { encodeInto } = TextEncoder.prototype;
  for (const units of [0, 1, V3.length - 1]) {
    TextEncoder.prototype.encodeInto = function (text, bytes) {
      return encodeInto.call(this, text.slice(0, units), bytes);
    };
    try {
      for (const call of [score, scoreLine, Vector.parse.bind(Vector), (text) => [...find(text)]]) {
        const message = `this text is too long: ${units} of its ${V3.length} units were encoded`;
        assert.throws(() => call(V3), { name: "RangeError", message });
      }
    } finally {
      TextEncoder.prototype.encodeInto = encodeInto;
    }
  }
  assert.equal(score(V3), 9.8);
}

// What an object has itself, and not by its prototype.
function owned(value) {
  if (value === null || typeof value !== "object") return value;
  if (Array.isArray(value)) return Array.from(value, owned);
  return Object.fromEntries(Object.keys(value).map((name) => [name, owned(value[name])]));
}

function said(make) {
  try {
    return owned(make());
  } catch (error) {
    const { name, message } = error;
    return { name, message, ...owned(error) };
  }
}

// What a package answers to a text. An object of the program is made by `object`.
function answersTo(text, { Vector, find, score, scoreLine }, object) {
  class Own extends Vector {}
  const jsonOf = ({ ok, error }) => (ok ? "" : JSON.stringify(error));
  const parts = [
    () => Vector.parse(text), () => jsonOf(Vector.parse(text)), () => score(text), () => scoreLine(text),
    () => new Vector(text), () => new Own(text), () => new Vector(text, object({})), () => score(text, object({})),
    () => new Vector(text, object(INCOMPLETE)), () => score(text, object(INCOMPLETE)), () => scoreLine(text, object(INCOMPLETE)),
    () => [...find(`${text} (${text})`)], () => [...find(text, object(INCOMPLETE))],
  ];
  const ofVector = ({ text: own, version, score: number, tenths, severity, scores, severities, nomenclature, nomenclatureScores,
    isComplete, metrics, described }) => ({ own, version, number, tenths, severity, scores, severities, nomenclature,
    nomenclatureScores, isComplete, metrics, described });
  const more = [
    ofVector, (vector) => vector.withoutNotDefined(), (vector) => vector.withMetrics(object({ E: "U" })),
    (vector) => vector.record(), (vector) => vector.explain(), (vector) => Vector.fromMetrics(vector.version, vector.metrics),
    (vector) => Vector.fromMetrics(vector.version, vector.metrics, object(INCOMPLETE)),
    (vector) => vector.withMetrics(object({ E: 1 })), (vector) => vector.withMetrics(object({ CR: "x" })),
  ];
  return [...parts.map(said), ...more.map((part) => said(() => part(new Vector(text, object(INCOMPLETE)))))];
}

function answersOf(own, object) {
  const severities = [0, 3.9, 7, 10.1].map((number) => said(() => own.severityOf("3.1", number)));
  return [owned(own.metrics), own.version, severities, ...TEXTS.map((text) => answersTo(text, own, object))];
}

// The names of the package's code and words, and the indices of its lists, except those that each object has.
function namesOf(source) {
  const words = source.replace(/^const TEXT = .*$/m, "").match(/[A-Za-z_$][\w$]*/g);
  const indices = Array.from({ length: 330 }, (_, index) => String(index - 2));
  const names = [...new Set([...words, ...indices])];
  return names.filter((name) => !(name in Object.prototype) && !(name in Array.prototype) && name !== "toJSON");
}

// What other code leaves behind: with a setter that keeps nothing, and a value that is found instead.
const POLLUTE = `(names, value) => {
  for (const prototype of [Object.prototype, Array.prototype]) {
    for (const name of names) {
      Object.defineProperty(prototype, name, { __proto__: null, configurable: true, get: () => value, set() {} });
    }
  }
}`;

// The package in a realm of its own, which is polluted before it is loaded, or after that.
function realm(source, names, value, isEarly) {
  const context = vm.createContext({ TextDecoder, TextEncoder, module: { exports: {} } });
  const pollute = vm.runInContext(POLLUTE, context);
  if (isEarly) pollute(names, value);
  vm.runInContext(source, context);
  const own = context.module.exports;
  if (!isEarly) own.score(TEXT);
  if (!isEarly) pollute(names, value);
  const object = vm.runInContext("(text) => JSON.parse(text)", context);
  return answersOf(own, (given) => object(JSON.stringify(given)));
}

function checkPrototypes() {
  const source = readFileSync(createRequire(import.meta.url).resolve("cvss-proved"), "utf8");
  const names = namesOf(source);
  const known = ["allowIncomplete", "kind", "others", "value", "-1", "0", "AV"];
  assert(names.length > 500 && known.every((name) => names.includes(name)));
  const expected = answersOf(cvss, (given) => given);
  for (const value of [undefined, true, 1, "X", [], {}, () => "X"]) {
    for (const isEarly of [true, false]) assert.deepEqual(realm(source, names, value, isEarly), expected);
  }
  // in the program itself, which Node's own code uses too: each name by itself
  const some = TEXTS.filter((_, row) => row % 9 === 0);
  const before = some.map((text) => answersTo(text, cvss, (given) => given));
  for (const name of [...names, Symbol.iterator]) {
    const pollution = { __proto__: null, configurable: true, get: () => "X", set() {} };
    Object.defineProperty(Object.prototype, name, pollution);
    let after;
    try {
      after = some.map((text) => answersTo(text, cvss, (given) => given));
    } finally {
      delete Object.prototype[name];
    }
    assert.deepEqual(after, before, String(name));
  }
  console.log(`JavaScript: ${TEXTS.length} texts, with ${names.length} names in the prototypes, 0 changed answers`);
}

checkSharedMemory();
checkEncoding();
checkPrototypes();
