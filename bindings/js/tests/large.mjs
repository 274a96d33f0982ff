// Tries texts of gigabytes: those that the memory of the module holds, and those of which no string or no memory holds the
// result. Each leaves the calls after it as they were.
//
// Usage: node large.mjs, where 3 GiB of memory are free. The package is the one that Node finds by its name.

import assert from "node:assert/strict";
import { constants } from "node:buffer";

import { CvssError, Vector, find, score, scoreLine } from "cvss-proved";
import { TEXT, V3, V4, rejects } from "./common.mjs";

const GIGABYTE = 2 ** 30;

// What strings are encoded for, which a large text before them must not change.
function checkOthers() {
  for (const text of [TEXT, V3, V4]) assert.deepEqual([new Vector(text).text, Vector.parse(text).vector.given], [text, text]);
  assert.deepEqual([score(TEXT), scoreLine(V3)], [7.8, `${V3} 9.8 critical`]);
  assert.equal(scoreLine("AV:é"), "error: invalid CVSS metric group component: `AV:é`");
  rejects(() => new Vector("CVSS:3.1/AV:q"), "invalid value", "AV", "Q", "invalid CVSSv3 AV (Attack Vector) metric: `Q`");
  assert.equal(new Vector(V3).withMetrics({ E: "U" }).text, `${V3}/E:U`);
  assert.deepEqual([...find(`é ${TEXT}`)].map(({ index }) => index), [2]);
}

// The package says itself that a text is too long.
function isTooLong(call, message) {
  assert.throws(call, (error) => {
    assert(error instanceof RangeError && !(error instanceof CvssError) && message.test(error.message), String(error));
    return true;
  });
  checkOthers();
}

// No string holds the reason, which quotes the text.
const quoted = new Uint8Array(constants.MAX_STRING_LENGTH).fill(0x61);
const noString = /^this text is too long: no string holds the \d{9} bytes of the result$/;
isTooLong(() => Vector.parse(quoted), noString);
isTooLong(() => scoreLine(quoted), noString);
assert.equal(score(quoted), null);

// The memory of the module has more than 2 GiB after this text, at whose end is a vector.
const long = new Uint8Array(2 * GIGABYTE + 64);
long.set(Buffer.from(`\n${V3}`), long.length - V3.length - 1);
assert.deepEqual([...find(long)].map(({ index, text }) => [index, text]), [[long.length - V3.length, V3]]);
checkOthers();

// No memory holds this text, nor the reason for that one, which quotes it.
const noMemory = /^this text is too long: there is no memory for \d{10} bytes$/;
isTooLong(() => score(new Uint8Array(4 * GIGABYTE)), noMemory);
isTooLong(() => scoreLine(long), noMemory);
console.log("JavaScript: texts of gigabytes, 0 wrong answers");
