// The scores that an incomplete vector can have: the least and the greatest of all its completions.

// Whether a more severe value never lowers a score of this kind. That is proved (docs/THEOREMS.md) of every score but the
// environmental ones of v2 and v3.0, for which all completions are scored, 2,592 at most.
const keepsOrder = (version, kind) => kind !== "environmental" || version === "3.1";

// What a missing metric can add to a text, from the most severe value down. The words list them so, except for the scope.
function additions({ name, values }) {
  const own = values.map(([letter]) => `/${name}:${letter}`);
  return name === "S" ? own.reverse() : own;
}

// The completions of a text; where the score keeps the order, only the most and the least severe of them.
function completions(text, absent, isOrdered) {
  const added = absent.map(additions);
  if (!isOrdered) return added.reduce((texts, own) => texts.flatMap((start) => own.map((end) => start + end)), [text]);
  return [text + added.map((own) => own[0]).join(""), text + added.map((own) => own[own.length - 1]).join("")];
}

function rangeOf(version, metrics) {
  const absent = missing(version, metrics);
  const isOrdered = version === "4.0" || keepsOrder(version, kindOf(version, metrics));
  const scores = completions(textOf(version, metrics), absent, isOrdered).map((text) => cvss.score(text));
  const count = absent.reduce((product, { values }) => product * values.length, 1);
  return { least: Math.min(...scores), greatest: Math.max(...scores), count };
}
