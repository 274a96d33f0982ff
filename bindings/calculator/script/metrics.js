// The metrics of each version with their words, and what is chosen of them.

// 3.0 and 3.1 have the same metrics, so they share what is chosen.
const TABLE_OF = { "4.0": "4.0", "3.1": "3.1", "3.0": "3.1", "2.0": "2.0" };

// A v3 vector that lacks base metrics is shown, with the range of the scores that it can have.
const INCOMPLETE = { allowIncomplete: true };

const state = {
  version: "4.0",
  chosen: { "4.0": {}, "3.1": {}, "2.0": {} },
  shown: null, // the vector of the result, or null
  kept: null, // the vector that the shown one is compared with, or null
  pair: null, // the two vectors of a text that has exactly two, or null
};

const at = (id) => document.getElementById(id);
const isAbsent = (value) => value === undefined || value === "X" || value === "ND";
const listed = (words) => [words.slice(0, -1).join(", "), ...words.slice(-1)].filter(Boolean).join(" and ");

// An element. Strings among its children stay text.
function make(tag, attributes = {}, ...children) {
  const element = document.createElement(tag);
  for (const [name, value] of Object.entries(attributes)) {
    if (name in element) element[name] = value;
    else element.setAttribute(name, value);
  }
  element.append(...children);
  return element;
}

// The sections of the form, with the library's metrics and words under the titles of the form.
const tables = Object.fromEntries(Object.entries(SECTIONS).map(([version, sections]) => [version, sections.map(
  ({ title, group, metrics }) => ({ title, group, metrics: metrics.map((own) => withWords(version, ...own)) }),
)]));

function withWords(version, name, title) {
  const { question, values } = cvss.metrics[version].find((metric) => metric.name === name);
  return { name, title, ask: question, values: values.map((own) => [own.value, own.title, own.description]) };
}

const ofVersions = (isChosen) => Object.fromEntries(Object.entries(tables).map(([version, sections]) =>
  [version, sections.filter(isChosen).flatMap(({ metrics }) => metrics)]));
const allMetrics = ofVersions(() => true);
const baseMetrics = ofVersions(({ group }) => group === "base");
const NAMES = [...new Set(Object.values(allMetrics).flat().map(({ name }) => name))];
const tableOf = (version) => tables[TABLE_OF[version]];
const metricsOf = (version) => allMetrics[TABLE_OF[version]];
const baseOf = (version) => baseMetrics[TABLE_OF[version]];
const chosen = () => state.chosen[TABLE_OF[state.version]];

function missing(version, metrics) {
  return baseOf(version).filter(({ name }) => metrics[name] === undefined);
}

// The text of some metrics of a version, which the library reads like any other.
function textOf(version, metrics) {
  let text = "";
  for (const { name } of metricsOf(version)) {
    if (metrics[name] !== undefined) text += `/${name}:${metrics[name]}`;
  }
  if (text === "") return "";
  return version === "2.0" ? text.slice(1) : `CVSS:${version}${text}`;
}
