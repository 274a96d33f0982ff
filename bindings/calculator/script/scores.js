// Scores as the page shows them. The library computes every score; this file says which one is asked for.

const NOMENCLATURES = {
  "CVSS-B": "base metrics",
  "CVSS-BT": "base and threat metrics",
  "CVSS-BE": "base and environmental metrics",
  "CVSS-BTE": "base, threat and environmental metrics",
};
const KINDS = ["base", "temporal", "environmental"];
const WORDS_OF_KINDS = {
  base: "Base score",
  temporal: "Temporal score: base and temporal metrics",
  environmental: "Environmental score: all metrics",
};

const tenth = (number) => number.toFixed(1);

// Which score of v2 and v3 counts all metrics: the environmental score if an environmental metric is defined, else the
// temporal score if a temporal metric is, else the base score.
function kindOf(version, metrics) {
  const isDefined = (kind) => tableOf(version).some(({ group, metrics: own }) =>
    group === kind && own.some(({ name }) => !isAbsent(metrics[name])));
  return ["environmental", "temporal"].find(isDefined) ?? "base";
}

// The score of the headline, which counts all metrics: its kind, its number and its severity.
function headlineOf({ version, nomenclature, metrics, score, severity }) {
  return { kind: nomenclature ?? kindOf(version, metrics), score, severity };
}

// Which metrics the score of the headline counts, in words.
function wordsOfKind(kind) {
  return kind in NOMENCLATURES ? `${kind}: ${NOMENCLATURES[kind]}` : WORDS_OF_KINDS[kind];
}

// The score that a complete vector would have with this value, and null where the vector would be incomplete.
function scoreWith(metric, letter) {
  const metrics = { ...chosen(), [metric.name]: letter };
  return missing(state.version, metrics).length ? null : cvss.score(textOf(state.version, metrics));
}
