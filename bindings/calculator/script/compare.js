// Two vectors side by side: their scores, and the metrics in which they differ.

function valueWords(vector, name) {
  const metric = metricsOf(vector.version).find((own) => own.name === name);
  const letter = vector.metrics[name];
  if (!metric) return `not in v${vector.version}`;
  if (letter === undefined) return metric.values.find(([own]) => isAbsent(own))?.[1] ?? "missing";
  return `${metric.values.find(([own]) => own === letter)[1]} (${letter})`;
}

function titleOf(name, vectors) {
  const metrics = vectors.map(({ version }) => metricsOf(version).find((metric) => metric.name === name));
  return metrics.find(Boolean).title;
}

// The names of the metrics that are defined with two values, in the order of the first vector's version.
function differing(left, right) {
  const names = [...metricsOf(left.version), ...metricsOf(right.version)].map(({ name }) => name);
  const defined = (vector, name) => (isAbsent(vector.metrics[name]) ? undefined : vector.metrics[name]);
  return [...new Set(names)].filter((name) => defined(left, name) !== defined(right, name));
}

function scoreCell(vector) {
  const { kind, score, severity } = headlineOf(vector);
  return make("td", {}, make("span", { className: "number" }, tenth(score)), " ", severityMark(severity),
    make("small", {}, kind));
}

function comparisonRows(left, right) {
  const both = [left, right];
  const rows = [make("tr", {}, make("th", { scope: "row" }, "Score"), ...both.map(scoreCell))];
  if (left.version !== right.version) {
    rows.push(make("tr", {}, make("th", { scope: "row" }, "Version"), ...cells(both.map(({ version }) => version))));
  }
  const metrics = differing(left, right).map((name) => {
    const title = make("th", { scope: "row" }, `${titleOf(name, both)} `, make("abbr", {}, name));
    return make("tr", {}, title, ...cells(both.map((vector) => valueWords(vector, name))));
  });
  return [...rows, ...metrics];
}

function sumOfComparison(left, right) {
  const count = differing(left, right).length;
  if (count === 0 && left.version === right.version) {
    return state.pair ? "No metric differs." : "Change a value or paste another vector: what differs is shown here.";
  }
  const [first, second] = [left, right].map((vector) => Math.round(headlineOf(vector).score * 10));
  const more = first === second ? "has the same score" : `scores ${tenth(Math.abs(second - first) / 10)} `
    + `${second > first ? "more" : "less"}`;
  return `${count} ${count === 1 ? "metric differs" : "metrics differ"}; the second vector ${more}.`;
}

function showComparison() {
  const [left, right] = state.pair ?? [state.kept, state.shown];
  at("comparison").hidden = !left || !right;
  if (!left || !right) return;
  const [, first, second] = at("differences").tHead.rows[0].cells;
  [first.textContent, second.textContent] = state.pair ? ["First", "Second"] : ["Kept", "Shown"];
  at("comparison-sum").textContent = sumOfComparison(left, right);
  at("differences").tBodies[0].replaceChildren(...comparisonRows(left, right));
  at("comparison-actions").hidden = state.pair !== null;
}

function keepShown() {
  state.kept = state.shown;
  state.pair = null;
  showComparison();
}

function endComparison() {
  state.kept = null;
  showComparison();
  at("compare").focus();
}

// Shows the kept vector, and keeps the one that was shown.
function swapCompared() {
  const kept = state.kept;
  state.kept = state.shown;
  adopt(kept, kept);
  remember(false);
}
