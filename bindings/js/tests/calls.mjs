// Tries the calls of the package by stored rows, whose answers are those of the second implementation or written by hand.
//
// Usage: node calls.mjs ROOT, the folder of the checkout. The package is the one that Node finds by its name.

import assert from "node:assert/strict";
import { isUtf8 } from "node:buffer";

import { CvssError, Vector, find, scoreLine, severityOf } from "cvss-proved";
import { INCOMPLETE, KINDS, factsOf, linesOf, textsOf } from "./common.mjs";

const VERSIONS = { 20: "2.0", 30: "3.0", 31: "3.1", 40: "4.0" };

// Components as an object; null where no object has them in this order, in which digits alone come first as a name.
function objectOf(components) {
  const entries = components === "" ? [] : components.split("/").map((component) => component.split(/:(.*)/s, 2));
  const names = new Set(entries.map(([name]) => name));
  const isKept = names.size === entries.length && entries.every(([name, value]) => value !== undefined && !/^\d+$/.test(name));
  return isKept ? Object.fromEntries(entries) : null;
}

// The vector that a call makes, or the error.
function tried(make) {
  try {
    return { vector: make() };
  } catch (error) {
    if (!(error instanceof CvssError)) throw error;
    return { error };
  }
}

function withMetrics(text) {
  const [vector, metrics] = text.split(/ (.*)/s);
  const object = objectOf(metrics);
  return object && tried(() => new Vector(vector, INCOMPLETE).withMetrics(object));
}

function fromMetrics(text, options) {
  const [number, metrics] = text.split(/ (.*)/s);
  const object = objectOf(metrics);
  return object && number in VERSIONS ? tried(() => Vector.fromMetrics(VERSIONS[number], object, options)) : null;
}

// The kind of an error, its metric and what it quotes; the index of the metric is in no error of the package. What is quoted
// is a part of the message.
function errorLine(made, [, , , start, length]) {
  if (!made) return null;
  const { error } = made;
  if (!error) return "0 - ";
  const quoted = Buffer.from(error.message).subarray(Number(start), Number(start) + Number(length));
  assert.equal(error.value, start === "0" ? null : String(quoted));
  return `${KINDS.indexOf(error.kind)} ${error.metric ?? "-"} ${error.value ?? ""}`;
}

const line = (made) => made && (made.vector ? `${made.vector} -` : `- ${made.error.message}`);

// What the package answers to a row of test_vectors about C, whose src/capi.rt says what each mark asks: null where it
// cannot be asked.
// Of an error it is given the expected columns.
const MARKS = {
  facts: (text, options) => factsOf(text, options),
  canonical: (text, options) => Vector.parse(text, options).vector?.text ?? "-",
  without: (text, options) => Vector.parse(text, options).vector?.withoutNotDefined().text ?? "-",
  record: (text, options) => Vector.parse(text, options).vector?.record() ?? "-",
  account: (text, options) => Vector.parse(text, options).vector?.explain() ?? "-",
  score_line: (text, options) => scoreLine(text, options),
  find: (text) => [...find(text)].map(({ index, text: own }) => `${index} ${Buffer.byteLength(own)}`).join(", ") || "-",
  value: (text, options) => Vector.parse(text, options).error?.value || "-",
  groups: (text, options) => {
    const scores = Object.values(Vector.parse(text, options).vector?.nomenclatureScores ?? {});
    return scores.map((own) => Math.round(10 * own)).join(" ") || "-";
  },
  // a vector that was accepted may stay incomplete
  with: (text, options) => (options ? line(withMetrics(String(text))) : null),
  build: (text, options) => line(fromMetrics(String(text), options)),
  rating: (text) => {
    const [number, tenths] = String(text).split(" ");
    if (!(number in VERSIONS)) return null;
    return tenths >= 0 && tenths <= 100 ? severityOf(VERSIONS[number], tenths / 10) : null;
  },
  error: (text, options, columns) => {
    const mark = String(text).split(" ", 1)[0];
    const rest = text.subarray(mark.length + 1);
    if (mark === "with") return options ? errorLine(withMetrics(String(rest)), columns) : null;
    if (mark === "build") return errorLine(fromMetrics(String(rest), options), columns);
    return errorLine(Vector.parse(rest, options), columns);
  },
};

// The row that is expected, as the package can answer it.
function expectedOf(mark, row) {
  if (mark === "error") return row.replace(/^(\d) -?\d+ (\S+) \d+ \d+ /, "$1 $2 ");
  return row.replace(/^- metric \d+: /, "- ");
}

function checkMarks() {
  const expected = textsOf("crates/test_vectors/stdout");
  const counts = {};
  let compared = 0;
  linesOf("crates/test_vectors/stdin").forEach((whole, row) => {
    if (!String(whole).startsWith("c ")) return;
    const asked = whole.subarray("c ".length);
    const isComplete = String(asked).startsWith("complete ");
    const own = isComplete ? asked.subarray("complete ".length) : asked;
    const mark = String(own).split(" ", 1)[0];
    const text = own.subarray(mark.length + 1);
    // metrics are given as strings, and what is no UTF-8 has none
    const isOfMetrics = /^(error )?(with|build) /.test(String(own));
    if (!MARKS[mark] || (isOfMetrics && !Buffer.from(String(text)).equals(text))) return;
    const answer = MARKS[mark](text, isComplete ? undefined : INCOMPLETE, expected[row].split(" "));
    if (answer === null) return;
    if (typeof answer === "object") assert.deepEqual(answer, JSON.parse(expected[row]), String(asked));
    else assert.equal(answer, expectedOf(mark, expected[row]), String(asked));
    compared += 1;
    for (const name of isComplete ? [mark, "complete"] : [mark]) counts[name] = (counts[name] ?? 0) + 1;
  });
  assert.deepEqual([...Object.keys(MARKS), "complete"].filter((mark) => !(counts[mark] > 4)), []);
  console.log(`JavaScript: ${compared} rows about calls, 0 wrong answers`);
}

// A column of a row that tests/stored/expected.py has written, as bytes; null where there is none.
function unescaped(column) {
  if (column === "\\N") return null;
  return Buffer.from(column.replace(/\\x(..)/g, (_, code) => String.fromCharCode(parseInt(code, 16))), "latin1");
}

// The text of a vector; or the number of the kind of its error, the metric and what is quoted.
function outcome(make) {
  try {
    return [make().text, null];
  } catch (error) {
    if (!(error instanceof CvssError)) throw error;
    return [null, `${KINDS.indexOf(error.kind)} ${error.metric ?? "-"} ${error.value ?? ""}`];
  }
}

// Metrics that are set, vectors that are made of metrics, what errors quote, and the four scores of v4.0, beside the second
// implementation. The variable CVSS_ROWS names a file with other rows.
function checkCalls() {
  const rows = textsOf(process.env.CVSS_ROWS ?? "tests/stored/calls");
  let compared = 0;
  for (const row of rows) {
    const [text, metrics, asked, components, ...columns] = row.split("\t").map(unescaped);
    const expected = columns.map((column) => column && String(column));
    const [set, own] = [metrics, components].map((given) => isUtf8(given) && objectOf(String(given)));
    if (set) {
      assert.deepEqual(outcome(() => new Vector(text, INCOMPLETE).withMetrics(set)), expected.slice(0, 2), row);
      compared += 1;
    }
    if (own && Object.values(VERSIONS).includes(String(asked))) {
      assert.deepEqual(outcome(() => Vector.fromMetrics(String(asked), own, INCOMPLETE)), expected.slice(2, 4), row);
      compared += 1;
    }
    assert.equal(outcome(() => new Vector(text, INCOMPLETE))[1], expected[4], row);
    assert.equal(Vector.parse(text).error?.message ?? null, expected[5], row);
    const scores = Object.values(Vector.parse(text, INCOMPLETE).vector?.nomenclatureScores ?? {}).map((each) => each.toFixed(1));
    assert.deepEqual(scores, expected.slice(6).filter((each) => each !== null), row);
  }
  assert(compared > rows.length);
  console.log(`JavaScript: ${rows.length} texts with metrics to set and to make vectors of, 0 wrong answers`);
}

checkMarks();
checkCalls();
