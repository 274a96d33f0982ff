// The form: a group of radio buttons for each metric.

function drawValue(metric, [letter, title, sentence]) {
  const id = `${metric.name}-${letter}`;
  const would = make("span", { className: "would", id: `${id}-would`, "aria-hidden": "true" });
  const described = `${id} ${id}-would`;
  const input = make("input", { type: "radio", name: metric.name, value: letter, "aria-describedby": described });
  const label = make("label", {}, input, `${title} `, make("b", {}, letter), would);
  const words = make("p", { className: "sentence", id, hidden: true }, make("b", {}, `${title}: `), sentence);
  input.addEventListener("change", () => choose(metric.name, letter));
  label.addEventListener("mouseenter", () => explainValue(metric, letter));
  label.addEventListener("mouseleave", () => explainValue(metric, markedLetter(metric)));
  return { label, words };
}

function drawMetric(metric) {
  const values = metric.values.map((value) => drawValue(metric, value));
  const legend = make("legend", {}, `${metric.title} `, make("abbr", { title: metric.title }, metric.name));
  const ask = make("p", { className: "ask", id: `ask-${metric.name}` }, metric.ask);
  const labels = make("div", { className: "values" }, ...values.map(({ label }) => label));
  const words = make("div", { className: "sentences" }, ...values.map((value) => value.words));
  const own = { className: "metric", id: `metric-${metric.name}`, "aria-describedby": ask.id };
  return make("fieldset", own, legend, ask, labels, words);
}

function drawGroup(group) {
  const cards = make("div", { className: "cards" }, ...group.metrics.map(drawMetric));
  if (group.group === "base") return make("section", { className: "group" }, make("h2", {}, group.title), cards);
  const summary = make("summary", {}, group.title, " ", make("span", { className: "count" }));
  return make("details", { className: "group", "aria-label": group.title }, summary, cards);
}

// FIRST's document that defines the metrics and the scores of a version.
function drawStandard(version) {
  const isOld = version === "2.0";
  at("standard").href = `https://www.first.org/cvss/${isOld ? "v2/guide" : `v${version}/specification-document`}`;
  at("standard").textContent = `FIRST's ${isOld ? "guide to" : "specification of"} CVSS v${version}`;
}

function drawForm() {
  at("groups").replaceChildren(...tableOf(state.version).map(drawGroup));
  drawStandard(state.version);
  for (const input of document.getElementsByName("version")) input.checked = input.value === state.version;
}

// The value that is marked: of an optional metric that is absent, "Not defined".
function markedLetter(metric) {
  const absent = metric.values.find(([letter]) => isAbsent(letter));
  return chosen()[metric.name] ?? absent?.[0];
}

function explainValue(metric, letter) {
  for (const words of at(`metric-${metric.name}`).querySelectorAll(".sentence")) {
    words.hidden = words.id !== `${metric.name}-${letter}`;
    words.classList.toggle("chosen", words.id === `${metric.name}-${markedLetter(metric)}`);
  }
}

// Shows in each value the score that it would give, and returns whether there is one.
function markScores(metric) {
  const scores = metric.values.map(([letter]) => scoreWith(metric, letter));
  metric.values.forEach(([letter], index) => {
    at(`${metric.name}-${letter}-would`).textContent = scores[index] === null ? "" : tenth(scores[index]);
  });
  return scores.some((score) => score !== null);
}

function markMetric(metric) {
  const field = at(`metric-${metric.name}`);
  const letter = markedLetter(metric);
  for (const input of field.querySelectorAll("input")) input.checked = input.value === letter;
  field.classList.toggle("unused", isAbsent(chosen()[metric.name]));
  explainValue(metric, letter);
}

// Marks what is chosen, and opens the groups in which something is.
function markForm() {
  [...at("groups").children].forEach((element, place) => {
    const group = tableOf(state.version)[place];
    group.metrics.forEach(markMetric);
    if (group.group === "base") return;
    const count = group.metrics.filter(({ name }) => chosen()[name] !== undefined).length;
    element.querySelector(".count").textContent = count ? `(${count} chosen)` : "";
    element.classList.toggle("unused", count === 0);
    if (count) element.open = true;
  });
  // supplemental metrics change no score
  const scoring = tableOf(state.version).filter(({ group }) => group !== "supplemental");
  const shown = scoring.flatMap(({ metrics }) => metrics).map(markScores);
  at("would-note").hidden = !shown.includes(true);
}
