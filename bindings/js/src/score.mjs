// Scores without a vector.

import { call, decoded, first, put, ready, wasm } from "./memory.mjs";
import { SEVERITIES, flagsOf, numberOf } from "./words.mjs";

export function score(text, options) {
  ready();
  const flags = flagsOf(options);
  const tenths = wasm.cvss_score(first, put(text, first), flags);
  return tenths < 0 ? null : tenths / 10;
}

export function scoreLine(text, options) {
  ready();
  const flags = flagsOf(options);
  const length = put(text, first);
  const end = first + length;
  return decoded(end, call("cvss_score_line", end, first, length, flags));
}

// The severity of a score, which has one decimal.
export function severityOf(version, score) {
  ready();
  const number = numberOf(version);
  const tenths = Math.round(10 * score);
  if (tenths / 10 !== score || tenths < 0 || tenths > 100) {
    const given = typeof score === "string" ? JSON.stringify(score) : String(score);
    throw new RangeError(`a score is a number from 0 to 10 with one decimal, not ${given}`);
  }
  return SEVERITIES[wasm.cvss_severity(number, tenths)];
}
