// Vectors in any text.

import { Vector } from "./vector.mjs";
import { decoded, first, matchAt, numbers, octets, put, putEncoded, ready, wasm } from "./memory.mjs";

// Where the members of the struct CvssMatch of cvss.h begin, in bytes.
const MATCH_NEXT = 8;
const MATCH_OFFSET = 16;
const MATCH_LENGTH = 24;

// How many units of UTF-16 a part of the text in memory has.
function unitsIn(begin, end) {
  let units = 0;
  for (let address = first + begin; address < first + end; address++) {
    const byte = octets[address];
    if (byte < 0x80 || byte >= 0xc0) units += byte >= 0xf0 ? 2 : 1;
  }
  return units;
}

// The texts of the matches, by where each begins, in units of UTF-16 or in bytes. No match has a lone surrogate, nor what
// takes its place.
function matchesIn(text) {
  ready();
  const isString = typeof text === "string";
  const length = isString ? putEncoded(text, first) : put(text, first);
  const hasByteUnits = !isString || length === text.length;
  const matches = new Map();
  let end = 0;
  let index = 0;
  // the state before the first call; the high half of a size_t is always 0
  numbers[(matchAt + MATCH_NEXT) >> 2] = 0;
  while (wasm.cvss_find(first, length, matchAt) !== 0) {
    const begin = numbers[(matchAt + MATCH_OFFSET) >> 2] >>> 0;
    const size = numbers[(matchAt + MATCH_LENGTH) >> 2] >>> 0;
    index += hasByteUnits ? begin - end : unitsIn(end, begin);
    matches.set(index, decoded(first + begin, size));
    index += size;
    end = begin + size;
  }
  return matches;
}

function* vectorsOf(matches, options) {
  for (const index of matches.keys()) {
    const text = matches.get(index);
    const { ok, ...parsed } = Vector.parse(text, options);
    yield { index, text, ...parsed };
  }
}

export function find(text, options) {
  return vectorsOf(matchesIn(text), options);
}
