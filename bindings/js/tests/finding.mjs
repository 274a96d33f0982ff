// Tries how the package finds vectors in texts, beside the second implementation.
//
// Usage: node finding.mjs ROOT, the folder of the checkout. The package is the one that Node finds by its name.

import assert from "node:assert/strict";

import { find, scoreLine } from "cvss-proved";
import { INCOMPLETE, TEXT, V3, V4, linesOf, textsOf } from "./common.mjs";

const lineOfMatch = ({ vector, error }) =>
  (error ? `error: ${error.message}` : `${vector} ${vector.score.toFixed(1)} ${vector.severity}`);

function checkStoredTexts() {
  const byBytes = [];
  const texts = linesOf("tests/stored/texts");
  texts.forEach((line, row) => {
    const matches = [...find(line)];
    for (const each of matches) {
      assert.equal(line.toString("latin1", each.index, each.index + each.text.length), each.text);
      byBytes.push(`${row + 1}:${each.index + 1} ${lineOfMatch(each)}`);
    }
    const text = line.toString();
    const inText = [...find(text)];
    assert.deepEqual(inText.map(lineOfMatch), matches.map(lineOfMatch));
    for (const { index, text: own } of inText) assert.equal(text.slice(index, index + own.length), own);
    // which vectors are accepted changes no match
    const all = [...find(line, INCOMPLETE)];
    assert.deepEqual(all.map(({ index, text: own }) => [index, own]), matches.map(({ index, text: own }) => [index, own]));
    all.forEach((each) => assert.equal(lineOfMatch(each), scoreLine(each.text, INCOMPLETE)));
  });
  assert.deepEqual(byBytes, textsOf("tests/stored/found"));
  console.log(`JavaScript: ${texts.length} texts, ${byBytes.length} matches, 0 wrong answers`);
}

// The next match is looked for where the part of the text ended that the last one is in, and not where that match ended: so
// there is one match in each of these links, as `cvss find` and reference/finding.py have it.
function checkParts() {
  const link = `https://x/?v3=${V3}%20v2:${TEXT}`;
  const text = `${link} é ${link}`;
  const expected = [text.indexOf(V3), text.lastIndexOf(V3)].map((index) => [index, V3]);
  assert.deepEqual([...find(text)].map((match) => [match.index, match.text]), expected);
}

function checkUnits() {
  const around = `é😀\ud800 ${TEXT} \udc00😀 (${V3})`;
  assert.deepEqual([...find(around)].map(({ index }) => index), [around.indexOf(TEXT), around.indexOf(V3)]);
  // a call between two of its results takes nothing from the rest
  const [first, second] = [find(around), find(`${V4} ${V4}`)];
  assert.equal(first.next().value.vector.text, TEXT);
  assert.equal(second.next().value.vector.text, V4);
  assert.equal(first.next().value.vector.text, V3);
}

checkStoredTexts();
checkParts();
checkUnits();
