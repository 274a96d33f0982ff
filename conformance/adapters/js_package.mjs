#!/usr/bin/env node
// Answers the texts of the kit by the JavaScript package of this repository, and so by its module of WebAssembly.
//
// columns: canonical,version,score,temporal,environmental,nomenclature,severity,temporal_severity,environmental_severity,complete,kind

import { readFileSync } from "node:fs";

import cvss from "../../bindings/js/cvss.js";

const KINDS = {
  "invalid component": "component",
  "invalid prefix": "prefix",
  "unsupported version": "version",
  "unknown metric": "name",
  "invalid value": "value",
  "duplicate metric": "repeat",
  "missing metric": "missing",
  "not UTF-8": "encoding",
};
const column = (score) => score?.toFixed(1) ?? "-";

function answer(text) {
  const { ok, vector, error } = cvss.Vector.parse(text, { allowIncomplete: true });
  if (!ok) return `error: ${KINDS[error.kind]}`;
  // the kit has the base score of v2 and v3, and for v4.0 the score with all metrics
  const isV4 = vector.version === "4.0";
  const scores = [isV4 ? vector.score : vector.baseScore, vector.temporalScore, vector.environmentalScore];
  const severities = [isV4 ? vector.severity : vector.baseSeverity, vector.temporalSeverity, vector.environmentalSeverity];
  const complete = vector.isComplete ? "yes" : "no";
  return [vector, vector.version, ...scores.map(column), vector.nomenclature ?? "-",
    ...severities.map((severity) => severity ?? "-"), complete].join(" ");
}

const input = readFileSync(0);
const answers = [];
for (let begin = 0, end; (end = input.indexOf(10, begin)) >= 0; begin = end + 1) {
  answers.push(`${answer(input.subarray(begin, end))}\n`);
}
process.stdout.write(answers.join(""));
