// What the tests of the package share: the stored lines of the repository, and texts with known answers.

import assert from "node:assert/strict";
import { readFileSync } from "node:fs";
import { resolve } from "node:path";

import { CvssError, Vector } from "cvss-proved";

// The option under which a v3 vector may lack base metrics.
export const INCOMPLETE = { allowIncomplete: true };
// The folder of the checkout.
export const root = process.argv[2];
export const TEXT = "AV:N/AC:L/Au:N/C:N/I:N/A:C";
export const V3 = "CVSS:3.1/AV:N/AC:L/PR:N/UI:N/S:U/C:H/I:H/A:H";
export const V4 = "CVSS:4.0/AV:N/AC:L/AT:N/PR:N/UI:N/VC:H/VI:H/VA:H/SC:H/SI:H/SA:H";
export const KINDS = ["", "invalid component", "invalid prefix", "unsupported version", "unknown metric", "invalid value",
  "duplicate metric", "missing metric", "not UTF-8"];

// The lines of a file as bytes, split at each newline alone.
export function linesOf(path) {
  const lines = [];
  const bytes = readFileSync(resolve(root, path));
  for (let begin = 0, end; (end = bytes.indexOf(10, begin)) >= 0; begin = end + 1) lines.push(bytes.subarray(begin, end));
  assert(lines.length > 0, `${path} has no lines`);
  return lines;
}

export const textsOf = (path) => linesOf(path).map(String);
export const facts = textsOf("tests/stored/facts");
// the stored lines without a mark, which are the first
export const stored = linesOf("crates/test_vectors/stdin").slice(0, facts.length);
export const vectors = stored.map((line) => Vector.parse(line, INCOMPLETE)).flatMap(({ ok, vector }) => (ok ? [vector] : []));

const scored = (number, severity) => (number === null ? "- -" : `${number.toFixed(1)} ${severity}`);

// What is known of a text, as tests/stored/facts.py prints it.
export function factsOf(text, options) {
  const { ok, vector, error } = Vector.parse(text, options);
  if (!ok) return `${KINDS.indexOf(error.kind)} ${error.metric ?? "-"} ${error.message}`;
  const complete = vector.isComplete ? "complete" : "incomplete";
  const scores = [
    scored(vector.score, vector.severity),
    scored(vector.baseScore, vector.baseSeverity),
    scored(vector.temporalScore, vector.temporalSeverity),
    scored(vector.environmentalScore, vector.environmentalSeverity),
  ];
  const four = Object.values(vector.nomenclatureScores ?? {}).map((number) => number.toFixed(1));
  const own = Object.entries(vector.metrics).map(([name, value]) => `${name}=${value}`);
  const more = four.length > 0 ? four : ["-", "-", "-", "-"];
  return [vector, vector.version, vector.nomenclature ?? "-", complete, ...scores, ...more, ...own].join(" ");
}

const isRejected = (known) => /^[1-8] /.test(known);

// Whether a text is rejected only because base metrics are missing, by what is known of it.
export const isIncomplete = (known) => !isRejected(known) && known.split(" ")[3] === "incomplete";

// The line with the score of a text that may lack base metrics, by what is known of it.
export function scoreLineOf(known) {
  if (isRejected(known)) return known.replace(/^\d \S+ /, "error: ");
  const [text, , , , score, severity] = known.split(" ");
  return `${text} ${score} ${severity}`;
}

export function rejects(call, kind, metric, value, message) {
  assert.throws(call, (error) => {
    assert(error instanceof CvssError && error instanceof Error && error.name === "CvssError");
    const known = [error.kind, error.metric, error.value, error.message];
    assert.deepEqual(known, [kind, metric, value, message]);
    return true;
  });
}
