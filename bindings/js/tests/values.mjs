// Tries what texts, vectors and errors of the package have to do.
//
// Usage: node values.mjs ROOT, the folder of the checkout. The package is the one that Node finds by its name.

import assert from "node:assert/strict";

import { CvssError, Vector, find, metrics, score, scoreLine, severityOf } from "cvss-proved";
import { INCOMPLETE, TEXT, V3, V4, rejects, vectors } from "./common.mjs";

function checkTexts() {
  const bytes = Buffer.from(TEXT);
  for (const text of [TEXT, bytes, new Uint8Array(bytes)]) assert.equal(new Vector(text).text, TEXT);
  for (const other of [undefined, null, 5, 7n, true, Symbol("x"), {}, [65], [TEXT], new String(TEXT), new ArrayBuffer(8),
    new Uint16Array(8), new Int8Array(8), new DataView(new ArrayBuffer(8))]) {
    for (const call of [score, scoreLine, find, Vector.parse.bind(Vector), (text) => new Vector(text)]) {
      assert.throws(() => call(other), TypeError);
    }
  }
  // bytes that say that they are more or fewer than they are
  const long = Object.defineProperty(new Uint8Array(bytes), "length", { value: 2 ** 30 });
  assert.equal(new Vector(long).text, TEXT);
}

// Texts that are not UTF-8, and those that look as if they were not.
function checkUnicode() {
  for (const text of ["\ud800", "\udfff", `${TEXT}\ud83d`, `\udc00${TEXT}`, "AV:\ude00\ud83d", `é\ud800`]) {
    rejects(() => new Vector(text), "not UTF-8", null, null, "not UTF-8");
    assert.equal(scoreLine(text), "error: not UTF-8");
    assert.equal(score(text), null);
  }
  rejects(() => new Vector(Buffer.from([0x41, 0xff])), "not UTF-8", null, null, "not UTF-8");
  const smiling = "invalid CVSSv3 AV (Attack Vector) metric: `😀`";
  rejects(() => new Vector("CVSS:3.1/AV:😀"), "invalid value", "AV", "😀", smiling);
  // a byte-order mark is quoted too
  rejects(() => new Vector("CVSS:3.1/\ufeffAV:N"), "unknown metric", null, "\ufeffAV", "unknown CVSS metric name: `\ufeffAV`");
  rejects(() => new Vector("CVSS:3.1/AV:q"), "invalid value", "AV", "Q", "invalid CVSSv3 AV (Attack Vector) metric: `Q`");
  rejects(() => new Vector(""), "invalid component", null, "", "invalid CVSS metric group component: ``");
}

// What the message quotes may be empty, and is null where it quotes nothing. As JSON an error has its message too.
function checkErrors() {
  const rows = [
    ["AV:N/", "invalid component", null, "", "invalid CVSS metric group component: ``"],
    [`:${V3}`, "invalid prefix", null, "", "invalid CVSS string prefix: ``"],
    ["CVSS:3.1/:N", "unknown metric", null, "", "unknown CVSS metric name: ``"],
    ["CVSS:3.1/AV:", "invalid value", "AV", "", "invalid CVSSv3 AV (Attack Vector) metric: ``"],
    ["CVSS:9.9/AV:N", "unsupported version", null, "9.9", "unsupported CVSS version: 9.9"],
    ["AV:N/AV:N", "duplicate metric", "AV", null, "duplicate CVSSv2 AV (Access Vector) metric"],
    [TEXT.slice(0, -4), "missing metric", "A", null, "missing mandatory CVSSv2 A (Availability Impact) metric"],
    [V3.slice(0, -4), "missing metric", "A", null, "missing mandatory CVSSv3 A (Availability Impact) metric"],
  ];
  for (const [text, kind, metric, value, message] of rows) {
    rejects(() => new Vector(text), kind, metric, value, message);
    const { error } = Vector.parse(text);
    assert.deepEqual(JSON.parse(JSON.stringify({ error })), { error: { kind, metric, value, message } });
  }
  const { error } = Vector.parse("x");
  const line = { ...JSON.parse(JSON.stringify(Object.assign(error, { line: 3 }))) };
  assert.deepEqual([line.line, line.message], [3, error.message]);
  assert.deepEqual(Object.keys(error), ["kind", "metric", "value", "line"]);
  const made = JSON.stringify(new CvssError("words", "invalid value"));
  assert.deepEqual(JSON.parse(made), { kind: "invalid value", metric: null, value: null, message: "words" });
}

function checkVectors() {
  const vector = new Vector("CVSS:3.1/A:H/I:H/C:H/S:U/UI:N/PR:N/AC:L/AV:N");
  assert.equal(`${vector}`, V3);
  assert.equal(JSON.stringify({ vector }), `{"vector":"${V3}"}`);
  assert.deepEqual({ ...vector }, { given: "CVSS:3.1/A:H/I:H/C:H/S:U/UI:N/PR:N/AC:L/AV:N" });
  assert.notDeepEqual(vector, new Vector(V4));
  assert.equal(new Vector(Buffer.from(`${vector.given}`)).given, V3);
  for (const name of ["given", "text", "score", "baseScore", "version", "metrics"]) {
    assert.throws(() => { vector[name] = 1; }, TypeError);
  }
  assert.throws(() => { vector.metrics.AV = "P"; }, TypeError);
  class Own extends Vector {
    note = "seen";
  }
  for (const own of [new Own(V3), Own.parse(V3).vector, Own.fromMetrics("3.1", { AV: "N" }, INCOMPLETE),
    new Own(V3).withMetrics({ AV: "P" }), new Own("CVSS:3.1/AV:N", INCOMPLETE).withMetrics({ AV: "P" }),
    new Own(V3).withoutNotDefined()]) assert.equal(own instanceof Own && own.note, "seen");
  const own = new Own(V3);
  assert.throws(() => { own.given = V4; }, TypeError);
  assert.deepEqual([own.text, { ...own }], [V3, { given: V3, note: "seen" }]);
  class Accessed extends Vector {
    get given() { return "other"; }
    set given(text) {}
  }
  assert.deepEqual([new Accessed(V3).text, new Accessed(V3).given], [V3, V3]);
  assert.deepEqual(Vector.parse(V3), { ok: true, vector: new Vector(V3) });
  // an option is a property of the object itself
  for (const options of [INCOMPLETE, Object.create(INCOMPLETE), null, undefined, {}, { allowIncomplete: 0 }, { strict: false }]) {
    const ok = options === INCOMPLETE;
    assert.equal(Vector.parse("CVSS:3.1/AV:N", options).ok, ok);
    assert.equal(score("CVSS:3.1/AV:N", options) !== null, ok);
    assert.equal(scoreLine("CVSS:3.1/AV:N", options) === "CVSS:3.1/AV:N 0.0 none", ok);
    assert.equal([...find("CVSS:3.1/AV:N", options)][0].vector !== undefined, ok);
  }
  assert.equal(Vector.parse("x").error.kind, "invalid component");
  checkCallsWithin();
}

// Options and metrics may be computed by calls of the package, which use the same memory.
function checkCallsWithin() {
  const options = { get allowIncomplete() { return score(`${V4}/E:P`) > 0 && scoreLine(V4) !== ""; } };
  const given = { get AV() { return score(V4) > 0 ? "N" : ""; } };
  const text = "CVSS:3.1/AV:N";
  assert.deepEqual([new Vector(text, options).text, score(text, options), scoreLine(text, options)], [text, 0, `${text} 0.0 none`]);
  assert.equal([...find(`(${text})`, options)][0].vector.text, text);
  assert.equal(Vector.fromMetrics("3.1", given, options).text, text);
  assert.equal(new Vector(V3.replace("AV:N", "AV:P")).withMetrics(given).text, V3);
}

// What is not defined scores as what is absent (CVSS v2 guide, section 2.2; v3.1, section 3; v4.0, section 3).
function checkChanges() {
  for (const vector of vectors) {
    const shorter = vector.withoutNotDefined();
    for (const name of ["score", "severity", "scores", "severities", "nomenclatureScores", "isComplete"]) {
      assert.deepEqual(shorter[name], vector[name], `${name} of ${vector}`);
    }
    const entries = Object.entries(vector.metrics);
    const defined = entries.filter(([, value]) => value !== "X" && value !== "ND");
    if (defined.length > 0) assert.deepEqual(shorter.metrics, Object.fromEntries(defined));
    else assert.equal(shorter.text, vector.text);
    assert.equal(vector.withMetrics({}).text, vector.text);
    assert.deepEqual(vector.withMetrics({ IR: "H" }).metrics, { ...vector.metrics, IR: "H" });
    assert.equal(Vector.fromMetrics(vector.version, Object.fromEntries(entries.reverse()), INCOMPLETE).text, vector.text);
  }
}

function checkWithMetrics() {
  assert.equal(new Vector(V4).withMetrics({ e: "a", MSI: "S" }).text, `${V4}/E:A/MSI:S`);
  assert.equal(new Vector(V3).withMetrics({ AV: "P", E: "X" }).text, `${V3.replace("AV:N", "AV:P")}/E:X`);
  assert.equal(new Vector(`${V3}/CR:L`).withMetrics({ cr: "h", E: "u" }).text, `${V3}/E:U/CR:H`);
  assert.equal(Vector.fromMetrics("2.0", { C: "N", A: "C", I: "N", AV: "N", Au: "N", AC: "L" }).text, TEXT);
  const rows = [
    [{ E: "q" }, "invalid value", "E", "Q", "invalid CVSSv4 E (Exploit Maturity) metric: `Q`"],
    [{ MSI: "S", XX: "N" }, "unknown metric", null, "XX", "unknown CVSS metric name: `XX`"],
    [{ E: "A", e: "P" }, "duplicate metric", "E", null, "duplicate CVSSv4 E (Exploit Maturity) metric"],
    [{ E: "A:N" }, "invalid component", null, "E:A:N", "invalid CVSS metric group component: `E:A:N`"],
    [{ E: "A/MSI:S" }, "invalid component", null, "E:A/MSI:S", "invalid CVSS metric group component: `E:A/MSI:S`"],
    [{ E: "" }, "invalid value", "E", "", "invalid CVSSv4 E (Exploit Maturity) metric: ``"],
    [{ "": "N" }, "unknown metric", null, "", "unknown CVSS metric name: ``"],
    [{ E: "\ud800" }, "not UTF-8", null, null, "not UTF-8"],
  ];
  for (const [metrics, ...expected] of rows) {
    rejects(() => new Vector(V4).withMetrics(metrics), ...expected);
    rejects(() => Vector.fromMetrics("4.0", metrics), ...expected);
  }
  const unknown = ["unknown metric", null, "CVSS", "unknown CVSS metric name: `CVSS`"];
  for (const name of ["2.0", "3.1", "4.0"]) {
    rejects(() => Vector.fromMetrics(name, { CVSS: "3.1", AV: "N" }), ...unknown);
  }
  rejects(() => Vector.fromMetrics("4.0", { AV: "N" }), "missing metric", "AC", null,
    "missing mandatory CVSSv4 AC (Attack Complexity) metric");
  rejects(() => Vector.fromMetrics("3.1", {}), "invalid component", null, "", "invalid CVSS metric group component: ``");
  for (const other of [null, undefined, 5, "E:A", ["E:A"], new Map([["E", "A"]])]) {
    assert.throws(() => new Vector(V4).withMetrics(other), TypeError);
    assert.throws(() => Vector.fromMetrics("4.0", other), TypeError);
  }
  for (const value of [null, undefined, 5, {}]) assert.throws(() => new Vector(V4).withMetrics({ E: value }), TypeError);
  for (const other of ["1.0", 4, "toString", undefined]) assert.throws(() => Vector.fromMetrics(other, { AV: "N" }), TypeError);
}

// CVSS v3.1, section 5; v4.0, section 6; of v2 the bounds of NVD.
function checkSeverities() {
  const rows = { none: [0, 0], low: [0.1, 3.9], medium: [4, 6.9], high: [7, 8.9], critical: [9, 10] };
  for (const [word, bounds] of Object.entries(rows)) {
    for (const number of bounds) for (const name of ["3.0", "3.1", "4.0"]) assert.equal(severityOf(name, number), word);
  }
  for (const [number, word] of [[0, "low"], [3.9, "low"], [4, "medium"], [6.9, "medium"], [7, "high"], [10, "high"]]) {
    assert.equal(severityOf("2.0", number), word);
  }
  for (const number of [-0.1, 10.1, 9.85, 2 ** 32 / 10, NaN, Infinity, undefined, "9.8", null]) {
    assert.throws(() => severityOf("3.1", number), RangeError);
  }
  assert.throws(() => severityOf("3.1", "9.8"), { message: 'a score is a number from 0 to 10 with one decimal, not "9.8"' });
  for (const vector of vectors) assert.equal(severityOf(vector.version, vector.score), vector.severity);
}

// What the score of v4.0 would be with some groups of metrics alone, as the second implementation scores such vectors.
function checkNomenclatureScores() {
  const text = "CVSS:4.0/AV:N/AC:L/AT:N/PR:N/UI:N/VC:L/VI:H/VA:N/SC:N/SI:N/SA:N/E:P/CR:L/IR:L/S:P";
  const expected = { "CVSS-B": 8.8, "CVSS-BE": 7.9, "CVSS-BT": 7.8, "CVSS-BTE": 6.8 };
  assert.deepEqual(new Vector(text).nomenclatureScores, expected);
  assert.equal(new Vector(V3).nomenclatureScores, null);
  for (const vector of vectors.filter((each) => each.version === "4.0")) {
    const scores = vector.nomenclatureScores;
    assert.equal(scores["CVSS-BTE"], vector.score);
    assert.equal(scores[vector.nomenclature], vector.score);
  }
}

function checkMetrics() {
  for (const vector of vectors) {
    const own = vector.described.map(({ metric, value }) => [metric.name, value.value]);
    assert.deepEqual(Object.fromEntries(own), vector.metrics);
    for (const { metric, value } of vector.described) assert(metric.title && value.title && value.description);
  }
  assert.deepEqual(metrics["3.1"].slice(0, 2).map(({ name, title, group }) => [name, title, group]),
    [["AV", "Attack Vector", "base"], ["AC", "Attack Complexity", "base"]]);
  const titles = new Vector(`${V4}/MSC:N/MSI:S/MSA:X`).described.slice(-3).map(({ metric, value }) => [metric.title, value.title]);
  assert.deepEqual(titles, [
    ["Modified Confidentiality Impact to the Subsequent System", "Negligible"],
    ["Modified Integrity Impact to the Subsequent System", "Safety"],
    ["Modified Availability Impact to the Subsequent System", "Not defined"],
  ]);
  const [own] = metrics["4.0"];
  for (const part of [metrics, metrics["4.0"], own, own.values, own.values[0]]) assert(Object.isFrozen(part));
  // each value of each metric is accepted, and a letter more is not
  for (const [name, base] of Object.entries({ "2.0": TEXT, "3.0": V3.replace("3.1", "3.0"), "3.1": V3, "4.0": V4 })) {
    for (const metric of metrics[name]) {
      for (const { value } of metric.values) {
        assert.equal(new Vector(base).withMetrics({ [metric.name]: value }).metrics[metric.name], value);
      }
      assert.throws(() => new Vector(base).withMetrics({ [metric.name]: `${metric.values[0].value}Q` }), CvssError);
    }
  }
}

checkTexts();
checkUnicode();
checkErrors();
checkVectors();
checkChanges();
checkWithMetrics();
checkSeverities();
checkNomenclatureScores();
checkMetrics();
