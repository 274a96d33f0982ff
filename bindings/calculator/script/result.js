// The result: the score of the headline, all scores, the vector and its links.

function setSeverity(element, severity) {
  element.className = severity ? `severity ${severity}` : "";
  element.textContent = severity ?? "";
}

function severityMark(severity) {
  const element = make("strong");
  setSeverity(element, severity);
  return element;
}

function noteOf(vector, isRejected = false) {
  if (isRejected && vector) return "This is the score of the chosen values, not of the rejected text.";
  const names = missing(state.version, chosen()).map(({ title, name }) => `${title} (${name})`);
  if (names.length === 0) return "";
  if (!vector) return `Still to choose: ${listed(names)}.`;
  return `Incomplete: the standard requires all base metrics. ${listed(names)} ${names.length > 1 ? "are" : "is"} `
    + "missing and counted as having no weight.";
}

// The scores that what is chosen can have when it is complete; null where it is, or where nothing is chosen.
function currentRange() {
  const isBegun = Object.keys(chosen()).length > 0;
  return isBegun && missing(state.version, chosen()).length ? rangeOf(state.version, chosen()) : null;
}

function wordsOfRange({ least, greatest, count }) {
  const scores = least === greatest ? tenth(least) : `${tenth(least)} to ${tenth(greatest)}`;
  return `${scores} when complete (${count.toLocaleString("en")} ways to complete it)`;
}

function showBar(headline, range) {
  const bar = at("bar").firstElementChild;
  bar.className = headline?.severity ?? (range ? "possible" : "");
  bar.style.setProperty("--from", headline || !range ? 0 : range.least);
  bar.style.setProperty("--to", headline?.score ?? range?.greatest ?? 0);
}

// The rows of the scores: all three of v2 and v3, and those of the four nomenclatures of v4.0.
function scoreRows(vector) {
  if (vector.version !== "4.0") {
    return KINDS.map((kind) => [kind, vector.scores[kind], vector.severities[kind]]);
  }
  return Object.keys(NOMENCLATURES).map((name) => {
    const score = vector.nomenclatureScores[name];
    return [name, score, cvss.severityOf("4.0", score)];
  });
}

function showScores(vector) {
  const kind = vector && headlineOf(vector).kind;
  const rows = vector ? scoreRows(vector) : [];
  at("scores").querySelector("tbody").replaceChildren(...rows.map(([name, score, severity]) =>
    make("tr", name === kind ? { className: "own" } : {}, make("th", { scope: "row" }, name),
      make("td", { className: "number" }, tenth(score)), make("td", {}, severityMark(severity)))));
  at("scores").hidden = rows.length === 0;
}

function show(vector) {
  state.shown = vector;
  const headline = vector && headlineOf(vector);
  const range = currentRange();
  at("number").textContent = headline ? tenth(headline.score) : "–";
  setSeverity(at("severity"), headline?.severity);
  at("kind").textContent = headline ? wordsOfKind(headline.kind) : "";
  at("range").textContent = range ? wordsOfRange(range) : "";
  at("range").hidden = !range;
  showBar(headline, range);
  at("note").textContent = noteOf(vector);
  showScores(vector);
  showWhy(vector);
  showComparison();
  at("vector").textContent = vector?.text ?? (textOf(state.version, chosen()) || "–");
  at("record").hidden = at("compare").hidden = !vector;
  at("said").textContent = "";
  document.title = headline ? `${tenth(headline.score)} ${headline.severity} · CVSS calculator` : "CVSS calculator";
}

// ---- Copies and files

async function copy(text, words) {
  try {
    await navigator.clipboard.writeText(text);
    at("said").textContent = words;
  } catch (error) {
    at("said").textContent = `The browser does not allow this page to copy. Copy it from here: ${text}`;
  }
}

// A public calculator that opens a vector, for a page that is a file on this computer. FIRST has none for v2.
function publicLink({ version, text }) {
  return version === "2.0"
    ? `https://nvd.nist.gov/vuln-metrics/cvss/v2-calculator?vector=(${text})`
    : `https://www.first.org/cvss/calculator/${version}#${text}`;
}

function copyLink() {
  const { shown } = state;
  const isHosted = location.protocol === "http:" || location.protocol === "https:";
  const own = `${location.origin}${location.pathname}${location.search}${shown ? `#${shown.text}` : ""}`;
  if (isHosted) copy(own, "The link to this page is copied.");
  else if (!shown) at("said").textContent = "Choose all base metrics first: then there is a vector to link to.";
  else if (shown.version === "2.0") copy(publicLink(shown), "A link to NVD's calculator is copied.");
  else copy(publicLink(shown), "A link to FIRST's calculator is copied.");
}

function saveRecord() {
  const content = `${JSON.stringify(state.shown.record(), null, 2)}\n`;
  const place = URL.createObjectURL(new Blob([content], { type: "application/json" }));
  make("a", { href: place, download: "cvss.json" }).click();
  setTimeout(() => URL.revokeObjectURL(place), 60_000);
}
