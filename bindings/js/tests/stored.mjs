// Tries the package by the stored lines of the repository, whose answers are those of the second implementation.
//
// Usage: node stored.mjs ROOT, the folder of the checkout. The package is the one that Node finds by its name.

import assert from "node:assert/strict";

import { Vector, find, metrics, score, scoreLine, severityOf } from "cvss-proved";
import { INCOMPLETE, facts, factsOf, isIncomplete, scoreLineOf, stored, textsOf, vectors } from "./common.mjs";

function checkStoredLines() {
  const lines = textsOf("tests/stored/score_lines");
  const ported = textsOf("crates/test_vectors/stdout").slice(0, facts.length);
  assert.equal(lines.length, facts.length);
  stored.forEach((line, index) => {
    // a string is read as its UTF-8 is; bytes that are no UTF-8 have no string
    const text = line.toString();
    for (const given of Buffer.from(text).equals(line) ? [line, text] : [line]) {
      assert.equal(factsOf(given, INCOMPLETE), facts[index]);
      for (const [options, expected] of [[undefined, lines[index]], [INCOMPLETE, scoreLineOf(facts[index])]]) {
        assert.equal(scoreLine(given, options), expected);
        const number = expected.startsWith("error: ") ? null : Number(expected.split(" ")[1]);
        const { ok, vector } = Vector.parse(given, options);
        assert.deepEqual([score(given, options), ok ? vector.score : null], [number, number]);
        if (ok) checkNames(vector, number);
      }
    }
    const { ok, vector } = Vector.parse(line, INCOMPLETE);
    if (ok) assert.equal(portedLine(vector), ported[index]);
  });
  console.log(`JavaScript: ${stored.length} lines, 0 wrong answers`);
}

// What the port prints of a vector: of v2 and v3 the base score.
function portedLine(vector) {
  const { version, score: own, severity, baseScore, baseSeverity } = vector;
  return version === "4.0" ? `${vector} ${own.toFixed(1)} ${severity}` : `${vector} ${baseScore.toFixed(1)} ${baseSeverity}`;
}

// The objects with all scores and severities have those that the vector has by name.
function checkNames(vector, number) {
  assert.equal(vector.tenths, Math.round(10 * number));
  const { baseScore, baseSeverity, temporalScore, temporalSeverity, environmentalScore, environmentalSeverity } = vector;
  assert.deepEqual(vector.scores, { base: baseScore, temporal: temporalScore, environmental: environmentalScore });
  const severities = { base: baseSeverity, temporal: temporalSeverity, environmental: environmentalSeverity };
  assert.deepEqual(vector.severities, severities);
  for (const [name, severity] of Object.entries(severities)) {
    const own = vector.scores[name];
    assert.equal(severity, own === null ? null : severityOf(vector.version, own));
  }
}

// Each call that reads a text or metrics rejects incomplete vectors of v3, in words that were written by hand, and no others;
// and accepts them if it is asked to.
function checkIncomplete() {
  const rows = textsOf("tests/stored/incomplete").map((line) => line.split(/ (.*)/s));
  const messages = {};
  for (const [text, rejection] of rows) {
    const [, , metric, message] = /^(7) (\S+) (.*)$/.exec(rejection);
    messages[metric] = message;
    const vector = new Vector(text, INCOMPLETE);
    const version = text.slice(5, 8);
    assert.equal(vector.isComplete, false);
    for (const call of [() => new Vector(text), () => Vector.fromMetrics(version, vector.metrics)]) {
      assert.throws(call, { name: "CvssError", kind: "missing metric", metric, value: null, message });
    }
    assert.equal(factsOf(text), rejection);
    assert.deepEqual([score(text), scoreLine(text)], [null, `error: ${message}`]);
    assert.deepEqual([score(text, INCOMPLETE), scoreLine(text, INCOMPLETE)],
      [vector.score, `${vector} ${vector.score.toFixed(1)} ${vector.severity}`]);
    assert.equal([...find(text)][0].error.message, message);
    assert.equal([...find(text, INCOMPLETE)][0].vector.isComplete, false);
    // what was accepted stays so
    for (const other of [vector.withMetrics({ E: "X" }), vector.withMetrics({}), vector.withoutNotDefined(),
      Vector.fromMetrics(version, vector.metrics, INCOMPLETE)]) assert.equal(other.isComplete, false);
    const base = metrics[version].filter(({ isMandatory }) => isMandatory).map(({ name, values }) => [name, values[0].value]);
    assert.equal(vector.withMetrics(Object.fromEntries(base)).isComplete, true);
  }
  assert.equal(Object.keys(messages).length, 8);
  stored.forEach((line, index) => {
    const known = facts[index];
    const metric = Object.keys(messages).find((name) => !known.includes(` ${name}=`));
    assert.equal(factsOf(line), isIncomplete(known) ? `7 ${metric} ${messages[metric]}` : known);
  });
}

function checkRecords() {
  for (const line of textsOf("tests/stored/records")) {
    assert.deepEqual(new Vector(JSON.parse(line).vectorString, INCOMPLETE).record(), JSON.parse(line));
  }
  const explanations = textsOf("tests/stored/explanations");
  for (const line of explanations) assert.deepEqual(new Vector(JSON.parse(line).vector, INCOMPLETE).explain(), JSON.parse(line));
  for (const vector of vectors) {
    const record = vector.record();
    // the schema's base score of v4.0 is the score of the vector as it is
    const base = vector.version === "4.0" ? vector.score : vector.baseScore;
    assert.deepEqual([record.vectorString, record.version, record.baseScore], [vector.text, vector.version, base]);
    const { vector: text, score: own, severity } = vector.explain();
    assert.deepEqual([text, own, severity], [vector.text, vector.score, vector.severity]);
  }
  console.log(`JavaScript: ${explanations.length} explanations, 0 wrong numbers`);
}

checkStoredLines();
checkIncomplete();
checkRecords();
