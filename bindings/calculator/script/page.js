// What the user does, and the links and the history of the page. Every score is computed before the page is drawn
// again, so no score is shown beside other choices than its own.

// Whether the last entry of the history was typed into the field.
let wasTyped = false;

// Takes the metrics of a version into the form, with the vector that they are, if they are one. What was chosen before,
// also in other versions, belonged to another vector.
function adopt({ version, metrics }, vector) {
  const isOther = version !== state.version;
  state.version = version;
  for (const table of Object.keys(state.chosen)) state.chosen[table] = {};
  state.chosen[TABLE_OF[version]] = { ...metrics };
  if (isOther) drawForm();
  markForm();
  show(vector);
  markCurrent();
}

// Shows what a text holds, and returns whether that is one vector, which may be incomplete. What is chosen stays where
// the text is rejected for another reason or has several vectors.
function read(text, keepsFound) {
  if (!keepsFound) showFound([]);
  if (text.trim() === "") {
    reject("");
    return false;
  }
  const given = text.replace(NVD_LINK, vectorOfLink);
  const found = readText(given);
  const [first] = found;
  const isOne = found.length === 1;
  reject(isOne && !first.vector ? rejectionOf(first, text) : "", first.text);
  if (!isOne) showFound(found);
  if (!isOne) return false;
  const own = first.vector ?? partOf(first.text, first.error);
  if (own) adopt(own, first.vector ?? null);
  return own !== null;
}

// Shows the score of what is chosen, if the library accepts its text.
function showChosen() {
  reject("");
  const text = textOf(state.version, chosen());
  at("text").value = text;
  markForm();
  show((text && cvss.Vector.parse(text, INCOMPLETE).vector) || null);
  markCurrent();
}

// ---- Links, back and forward

function choice() {
  return { version: state.version, chosen: { ...chosen() } };
}

// Adds the choice to the history, or replaces the last entry where both were typed.
function remember(isTyped) {
  const own = choice();
  const place = state.shown ? `#${state.shown.text}` : location.pathname + location.search;
  const isSame = JSON.stringify(history.state) === JSON.stringify(own);
  if (isSame || (isTyped && wasTyped)) history.replaceState(own, "", place);
  else history.pushState(own, "", place);
  wasTyped = isTyped;
}

function linked() {
  const given = location.hash.slice(1);
  try {
    return decodeURIComponent(given);
  } catch (error) {
    return given;
  }
}

function restore(own) {
  wasTyped = false;
  if (own) {
    state.version = own.version;
    state.chosen[TABLE_OF[own.version]] = { ...own.chosen };
    drawForm();
    showChosen();
    return;
  }
  const link = linked();
  at("text").value = link;
  if (link === "") showChosen();
  else if (read(link, true)) history.replaceState(choice(), "", `#${state.shown?.text ?? link}`);
}

// ---- What the user does

function choose(name, letter) {
  if (isAbsent(letter)) delete chosen()[name];
  else chosen()[name] = letter;
  showChosen();
  remember(false);
}

// The metrics that v3 and v4.0 have with the same values keep them.
function changeVersion(version) {
  const before = chosen();
  const isShared = state.version !== "2.0" && version !== "2.0";
  state.version = version;
  for (const name of isShared ? ["AV", "AC", "PR"] : []) {
    if (before[name] !== undefined) chosen()[name] = before[name];
  }
  drawForm();
  showChosen();
  remember(false);
}

function clear() {
  state.chosen[TABLE_OF[state.version]] = {};
  showFound([]);
  showChosen();
  remember(false);
}

function takeHint() {
  const text = at("take-hint").textContent;
  at("text").value = text;
  if (read(text, false)) remember(false);
  at("text").focus();
}

function listen() {
  for (const input of document.getElementsByName("version")) {
    input.addEventListener("change", () => changeVersion(input.value));
  }
  at("text").addEventListener("input", (event) => {
    const isTyped = event.inputType !== "insertFromPaste" && event.inputType !== "insertFromDrop";
    if (read(at("text").value, false)) remember(isTyped);
  });
  at("metrics").addEventListener("submit", (event) => event.preventDefault());
  at("explain").addEventListener("change", () => document.body.classList.toggle("explained", at("explain").checked));
  const copied = () => copy(state.shown?.text ?? textOf(state.version, chosen()), "The vector is copied.");
  const actions = {
    "take-hint": takeHint, "copy-vector": copied, "copy-link": copyLink, record: saveRecord, compare: keepShown,
    clear, swap: swapCompared, "end-comparison": endComparison,
  };
  for (const [id, act] of Object.entries(actions)) at(id).addEventListener("click", act);
  addEventListener("popstate", (event) => restore(event.state));
  addEventListener("beforeprint", () => {
    for (const group of document.querySelectorAll("details:not(.unused)")) group.open = true;
  });
}

listen();
drawForm();
restore(history.state);
