// Why a score is what it is: the library's explanation, as tables and a drawing.

// The numbers of v2 and v3 in the order in which they are computed. Those of ROUNDED have one decimal.
const NUMBERS = {
  iss: ["Impact sub-score", "C, I and A combined, from 0 to 1"],
  miss: ["Modified impact sub-score", "MC, MI and MA combined, weighted by CR, IR and AR"],
  impact: ["Impact", "on the scale of the score"],
  modifiedImpact: ["Modified impact", "on the scale of the score"],
  adjustedImpact: ["Adjusted impact", "C, I and A weighted by CR, IR and AR"],
  exploitability: ["Exploitability", "how easy the attack is"],
  modifiedExploitability: ["Modified exploitability", "from MAV, MAC, MPR and MUI"],
  f: ["f(Impact)", "0 without impact, else 1.176"],
  adjustedBase: ["Adjusted base score", "the base score with the adjusted impact"],
  adjustedTemporal: ["Adjusted temporal score", "times E, RL and RC"],
  firstNumber: ["Before the first rounding", "the sum: 0 without impact, at most 10"],
  firstScore: ["After the first rounding", "before E, RL and RC"],
  number: ["Before rounding"],
  score: ["Score"],
};
const ROUNDED = ["adjustedBase", "adjustedTemporal", "firstScore", "score"];
// What the number before rounding is computed from.
const BY_TIME = "the base score times E, RL and RC";
const SOURCES_OF_V3 = {
  base: "the sum: 0 without impact, at most 10",
  temporal: BY_TIME,
  environmental: "after the first rounding, times E, RL and RC",
};
const SOURCES_OF_V2 = {
  base: "impact and exploitability combined, times f(Impact)",
  temporal: BY_TIME,
  environmental: "the adjusted temporal score with CDP, times TD",
};
const SCOPES = { U: "unchanged", C: "changed" };
// The groups of v4.0 and the metrics of each.
const GROUPS = {
  EQ1: ["Exploitability", "AV PR UI"],
  EQ2: ["Complexity", "AC AT"],
  "EQ3+EQ6": ["Vulnerable system", "VC VI VA CR IR AR"],
  EQ4: ["Subsequent systems", "SC SI SA"],
  EQ5: ["Exploitation", "E"],
};

const decimal = (number) => number.toFixed(7).replace(/\.?0+$/, "");
const orDash = (number, format) => (number === null ? "–" : format(number));
const row = (...cells) => make("tr", {}, ...cells);
const head = (scope, colSpan, ...words) => make("th", { scope, colSpan }, ...words);
const cells = (texts) => texts.map((text) => make("td", {}, text));

function drawn(tag, attributes, ...children) {
  const element = document.createElementNS("http://www.w3.org/2000/svg", tag);
  for (const [name, value] of Object.entries(attributes)) element.setAttribute(name, value);
  element.append(...children);
  return element;
}

// A group as a row of boxes, one for each step of its depth. Those of the distance are filled.
function drawSteps({ group, distance, depth, next }, place) {
  const top = 20 * place;
  const boxes = Array.from({ length: depth }, (_, step) =>
    drawn("rect", { x: 134 + 14 * step, y: top + 3, width: 11, height: 12, class: step < distance ? "gone" : "" }));
  const label = drawn("text", { x: 0, y: top + 13 }, GROUPS[group][0]);
  const words = drawn("text", { x: 138 + 14 * depth, y: top + 13 }, `${distance} of ${depth}`);
  return drawn("g", { class: next === null ? "last" : "" }, label, ...boxes, words);
}

function drawDistances(groups) {
  const words = groups.map(({ group, distance, depth }) => `${GROUPS[group][0]} ${distance} of ${depth}`).join(", ");
  const title = drawn("title", {}, `Steps below the most severe values of the level: ${words}`);
  const frame = { viewBox: `0 0 330 ${20 * groups.length}`, role: "img" };
  return drawn("svg", frame, title, ...groups.map(drawSteps));
}

// The metrics of a group of v4.0 with the values that count: a modified metric replaces its base metric, and a star
// marks a value that the standard assumes.
function lettersOf(group, { effective }, metrics) {
  return GROUPS[group][1].split(" ").map((name) => {
    const own = isAbsent(metrics[`M${name}`]) ? name : `M${name}`;
    return `${own}:${effective[name]}${isAbsent(metrics[own]) ? "*" : ""}`;
  }).join(" ");
}

function groupPart(explained, explanation, metrics) {
  const { group, class: level, distance, depth, nextValue, gap, share } = explained;
  const letters = make("code", {}, lettersOf(group, explanation, metrics));
  const title = head("rowgroup", 5, make("b", {}, GROUPS[group][0]), ` ${group} `, letters);
  const numbers = [orDash(nextValue, tenth), orDash(gap, tenth), orDash(share, decimal)];
  return make("tbody", {}, row(title), row(...cells([level, `${distance} of ${depth}`, ...numbers])));
}

function sumPart({ groups, macroVector, value, mean, number, score }) {
  const shares = groups.flatMap((group) => group.share ?? []).map(decimal);
  const sums = [
    [`MacroVector ${macroVector}`, tenth(value)],
    [shares.length ? `Subtracted: the mean of ${listed(shares)}` : "Subtracted", decimal(mean)],
    ["Before rounding", decimal(number)],
    ["Score", tenth(score)],
  ];
  const rows = sums.map(([words, sum]) => row(head("row", 4, words), ...cells([sum])));
  return make("tbody", { className: "sum" }, ...rows);
}

function sumOfGroups({ groups, macroVector, value, mean, number, score }) {
  if (groups.length === 0) {
    return `No system is affected, so the score is 0. Before rounding it is ${decimal(number)}.`;
  }
  return `The standard gives MacroVector ${macroVector} the score ${tenth(value)}. For values milder than the worst of `
    + `this MacroVector ${decimal(mean)} is subtracted. Before rounding the score is ${decimal(number)}, which rounds to `
    + `${tenth(score)}.`;
}

function footOfGroups(explanation, metrics) {
  const isAssumed = explanation.groups.some(({ group }) => lettersOf(group, explanation, metrics).includes("*"));
  return [
    explanation.groups.length && "Level 0 is the most severe. A filled box is a step down from the worst values of the "
      + "group's level. The share is the gap to the next lower MacroVector times the filled part of the boxes. The mean "
      + "of the shares is subtracted.",
    explanation.groups.some(({ next }) => next === null) && "A dashed group has no lower level and does not count.",
    isAssumed && "* Not defined, so it counts as the most severe value.",
  ].filter(Boolean).join("\n");
}

function whyOfGroups(explanation, metrics) {
  const names = ["Level", "Steps", "Next lower", "Gap", "Share"];
  const { groups } = explanation;
  return {
    sum: sumOfGroups(explanation),
    drawing: groups.length ? [drawDistances(groups)] : [],
    head: groups.length ? [row(...names.map((name) => head("col", 1, name)))] : [],
    parts: [...groups.map((group) => groupPart(group, explanation, metrics)), sumPart(explanation)],
    title: "",
    pairs: [],
    foot: footOfGroups(explanation, metrics),
  };
}

function numberPart(part, explanation) {
  const numbers = explanation[part];
  const sources = explanation.version === "2.0" ? SOURCES_OF_V2 : SOURCES_OF_V3;
  const rows = Object.keys(NUMBERS).filter((name) => name in numbers).map((name) => {
    const [title, words] = NUMBERS[name];
    const source = make("small", {}, name === "number" ? sources[part] : words ?? "");
    return row(head("row", 1, title, source), ...cells([(ROUNDED.includes(name) ? tenth : decimal)(numbers[name])]));
  });
  return make("tbody", {}, row(head("rowgroup", 2, make("b", { className: "part" }, part))), ...rows);
}

// The weight of each metric, in the order of the standard. The scope has none and is changed or unchanged.
function weightPairs({ version, weights, scope, modifiedScope }, metrics) {
  const all = { ...weights, ...(scope && { S: scope, MS: modifiedScope }) };
  const names = metricsOf(version).map(({ name }) => name).filter((name) => name in all);
  return names.map((name) => {
    const value = SCOPES[all[name]] ?? decimal(all[name]);
    const letter = isAbsent(metrics[name]) ? name : `${name}:${metrics[name]}`;
    return make("div", {}, make("dt", {}, letter), make("dd", {}, value));
  });
}

function sumOfWeights({ version, base, temporal, environmental }) {
  const rounding = version === "2.0" ? "to the nearest tenth and never below 0" : "up to a tenth";
  const [first, second, third] = [base, temporal, environmental].map(({ number }) => decimal(number));
  return `Before rounding the base score is ${first}, the temporal score ${second} and the environmental score ${third}. `
    + `Each is rounded ${rounding}.`;
}

function whyOfWeights(explanation, metrics) {
  return {
    sum: sumOfWeights(explanation),
    drawing: [],
    head: [],
    parts: KINDS.map((part) => numberPart(part, explanation)),
    title: "Weight of each metric",
    pairs: weightPairs(explanation, metrics),
    foot: "Impact and exploitability are computed from the weights of the metrics.",
  };
}

function showWhy(vector) {
  at("why").hidden = !vector;
  if (!vector) return;
  const explanation = vector.explain();
  const why = (explanation.groups ? whyOfGroups : whyOfWeights)(explanation, vector.metrics);
  at("why-sum").textContent = why.sum;
  at("why-drawing").replaceChildren(...why.drawing);
  at("why-numbers").tHead.replaceChildren(...why.head);
  for (const part of [...at("why-numbers").tBodies]) part.remove();
  at("why-numbers").append(...why.parts);
  at("why-foot").textContent = why.foot;
  at("why-metrics-title").textContent = why.title;
  at("why-metrics").replaceChildren(...why.pairs);
}
