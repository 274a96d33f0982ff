// The text field: the vectors in a text, and why a text is rejected.

const MOST_SHOWN = 400; // characters of a reason
const MOST_ROWS = 1_000; // rows of a table

// A text with its length bounded, in which each character that cannot be seen, or that changes the direction of
// writing, is replaced by its number.
function visible(text) {
  const shown = text.slice(0, MOST_SHOWN).replace(/[\p{C}\p{Zl}\p{Zp}]/gu, (character) =>
    `<U+${character.codePointAt(0).toString(16).toUpperCase().padStart(4, "0")}>`);
  return text.length <= MOST_SHOWN ? shown : `${shown}… (${text.length.toLocaleString("en")} characters)`;
}

// Links to NVD's calculators. The vector in one has no prefix, and for v2 parentheses.
const NVD_LINK = /https?:\/\/nvd\.nist\.gov\/[^\s<>"'`]*[?&;]vector=[^\s<>"'`]*/gi;
const VERSION_OF_PAGE = { 2: "2.0", 3: "3.1", 4: "4.0" };

// The vector of such a link, with its prefix; the link itself if it has none.
function vectorOfLink(link) {
  const given = new URL(link.replaceAll("&amp;", "&")).searchParams;
  const vector = given.get("vector")?.replace(/^[\s(]+|[\s).,;]+$/g, "");
  if (!vector) return link;
  const page = /v([234])-calculator/i.exec(link)?.[1] ?? 2;
  const version = /\d\.\d/.exec(given.get("version"))?.[0] ?? VERSION_OF_PAGE[page];
  return version === "2.0" || /^cvss:/i.test(vector) ? vector : `CVSS:${version}/${vector}`;
}

// The vectors in a text, in its order. Where there is none, the whole text with the reason why it is none.
function readText(text) {
  const found = [...cvss.find(text, INCOMPLETE)];
  if (found.length) return found;
  const whole = text.trim();
  const { ok, vector, error } = cvss.Vector.parse(whole, INCOMPLETE);
  return [ok ? { text: whole, vector } : { text: whole, error, isWhole: true }];
}

function foundRow({ text, vector, error }) {
  if (!vector) {
    const reason = make("span", { className: "reason" }, visible(error.message));
    const given = make("td", {}, make("code", {}, visible(text)), reason);
    return make("tr", {}, make("td", {}, "–"), make("td", {}, "rejected"), make("td", {}, "–"), given);
  }
  const { kind, score, severity } = headlineOf(vector);
  const link = make("a", { href: `#${vector.text}` }, make("code", {}, vector.text));
  const words = vector.isComplete ? kind : `${kind}, incomplete`;
  return make("tr", {}, make("td", { className: "number" }, tenth(score)), make("td", {}, severityMark(severity)),
    make("td", {}, words), make("td", {}, link));
}

function captionOf(found, accepted) {
  const count = (number, word) => `${number.toLocaleString("en")} ${word}${number === 1 ? "" : "s"}`;
  const rejected = found.length - accepted.length;
  const most = found.length > MOST_ROWS ? ` The first ${MOST_ROWS.toLocaleString("en")} are listed.` : "";
  return `${count(accepted.length, "vector")}, highest score first; ${rejected.toLocaleString("en")} rejected.${most}`;
}

function showFound(found) {
  const accepted = found.filter(({ vector }) => vector).map((each) => ({ ...each, rank: headlineOf(each.vector).score }));
  const rejected = found.filter(({ vector }) => !vector);
  const rows = [...accepted.sort((a, b) => b.rank - a.rank), ...rejected].slice(0, MOST_ROWS);
  at("found").querySelector("caption").textContent = captionOf(found, accepted);
  at("found").querySelector("tbody").replaceChildren(...rows.map(foundRow));
  at("found").hidden = found.length === 0;
  at("found").scrollTop = 0;
  const vectors = found.flatMap(({ vector }) => vector ?? []);
  state.pair = vectors.length === 2 ? vectors : null;
  showComparison();
}

function markCurrent() {
  for (const link of at("found").querySelectorAll("a")) {
    if (state.shown && link.textContent === state.shown.text) link.setAttribute("aria-current", "true");
    else link.removeAttribute("aria-current");
  }
}

// ---- A rejected text

// The text with the prefix that it lacks or misspells, where that is a complete vector.
function suggestion(text) {
  if (text.length > MOST_SHOWN) return null;
  const rest = text.replace(/^[(["'\s]+|[)\]"'\s]+$/g, "").replace(/^cvss\s*:?\s*(v?\d\.\d)?\/?/i, "");
  const version = /^[(["'\s]*cvss\s*:?\s*v?(\d\.\d)/i.exec(text)?.[1];
  const versions = version ? [version] : ["3.1", "4.0"];
  const candidates = versions.map((own) => cvss.Vector.parse(own === "2.0" ? rest : `CVSS:${own}/${rest}`));
  return candidates.find(({ ok }) => ok)?.vector ?? null;
}

// Shows why the text is rejected, with what was meant if that is clear. Without words nothing is rejected.
function reject(words, text = "") {
  at("rejection").textContent = words;
  at("rejection").hidden = !words;
  at("text").setAttribute("aria-invalid", words ? "true" : "false");
  const vector = words ? suggestion(text) : null;
  at("take-hint").textContent = vector?.text ?? "";
  at("hint").hidden = !vector;
  at("note").textContent = noteOf(state.shown, words !== "");
}

// What an incomplete vector of v2 or v4.0 has. The library rejects it for each missing base metric in turn, so each is
// added here, and then taken out again.
function partOf(text, error) {
  const version = text.startsWith("CVSS:") ? "4.0" : "2.0";
  const added = [];
  let parsed = { error };
  while (parsed.error?.kind === "missing metric") {
    const { metric } = parsed.error;
    added.push(metric);
    text += `/${metric}:${baseOf(version).find(({ name }) => name === metric).values[0][0]}`;
    parsed = cvss.Vector.parse(text);
  }
  if (!parsed.ok) return null;
  const metrics = { ...parsed.vector.metrics };
  for (const name of added) delete metrics[name];
  return { version, metrics };
}

// Whether a text has parts of a vector: a prefix or a metric next to a slash, or two metrics.
function hasParts(text) {
  const own = `(?:${NAMES.join("|")}):[a-z]`;
  const isNextToSlash = new RegExp(`\\bCVSS:\\d\\.\\d/|\\b${own}+/|/${own}`, "i").test(text);
  return isNextToSlash || text.match(new RegExp(`\\b${own}`, "gi"))?.length > 1;
}

// Why a text is rejected, after the part that was read as a vector if the text has more.
function rejectionOf({ text, error, isWhole }, whole) {
  if (isWhole && !hasParts(text)) return "There is no CVSS vector in this text.";
  const isPart = text && text !== whole.trim() && text.length <= MOST_SHOWN / 2;
  return visible(isPart ? `${text}: ${error.message}` : error.message);
}
