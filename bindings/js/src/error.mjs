// Why a text is rejected, as the struct CvssError of cvss.h has it.

import { call, decoded, errorAt, numbers, octets } from "./memory.mjs";

// By their numbers.
const KINDS = [
  "",
  "invalid component",
  "invalid prefix",
  "unsupported version",
  "unknown metric",
  "invalid value",
  "duplicate metric",
  "missing metric",
  "not UTF-8",
];
// Where the members of the struct begin, in bytes.
const ERROR_KIND = 4;
const ERROR_METRIC = 16;
const ERROR_QUOTED_START = 24;
const ERROR_QUOTED_LENGTH = 32;

export class CvssError extends Error {
  kind;
  metric;
  value;

  constructor(message, kind, metric = null, value = null) {
    super(message);
    this.kind = kind;
    this.metric = metric;
    this.value = value;
  }

  // the message of an error is no property that JSON has
  toJSON() {
    return { ...this, message: this.message };
  }
}
const name = { __proto__: null, value: "CvssError", configurable: true, writable: true };
Object.defineProperty(CvssError.prototype, "name", name);

const memberAt = (offset) => numbers[(errorAt + offset) >> 2];

// Whether the last call has rejected what it was given.
export const isRejected = () => memberAt(ERROR_KIND) !== 0;

// The error of the last call, which has written the message into the buffer.
export function errorOf(buffer, length) {
  const message = decoded(buffer, length);
  const name = errorAt + ERROR_METRIC;
  const metric = decoded(name, octets.indexOf(0, name) - name) || null;
  // no message begins with what it quotes
  const start = memberAt(ERROR_QUOTED_START) >>> 0;
  const value = start === 0 ? null : decoded(buffer + start, memberAt(ERROR_QUOTED_LENGTH) >>> 0);
  return new CvssError(message, KINDS[memberAt(ERROR_KIND)], metric, value);
}

// What a function writes into its buffer, after the texts, which end at an address; its error is thrown.
export function written(name, end, ...words) {
  const length = call(name, end, ...words, errorAt);
  if (isRejected()) throw errorOf(end, length);
  return decoded(end, length);
}
