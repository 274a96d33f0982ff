// The metrics of each version with the words for them and for their values.

import { TABLES } from "./generated.mjs";

const valueOf = (row) => Object.freeze({ value: row[0], title: row[1], description: row[2] });

// A modified metric has the values of its base metric, or others in their place, and X.
function modified({ others = [] }, base) {
  const own = new Map(others.map((row) => [row[0], valueOf(row)]));
  const values = base.values.map((value) => own.get(value.value) ?? value);
  const more = [...own.values()].filter(({ value }) => !base.values.some((other) => other.value === value));
  return [valueOf(["X", "Not defined", `The same as ${base.name}.`]), ...more, ...values];
}

function typeOf(metric, group, base) {
  const title = metric.full ?? metric.title ?? `Modified ${base.title}`;
  const values = base ? modified(metric, base) : metric.values.map(valueOf);
  const question = metric.ask ?? base.question;
  const { name } = metric;
  return Object.freeze({ name, title, group, isMandatory: group === "base", question, values: Object.freeze(values) });
}

function tableOf(groups) {
  const known = new Map();
  for (const { group, metrics } of groups) {
    // what a metric of the table lacks is not found in a prototype
    const own = metrics.map((metric) => ({ __proto__: null, ...metric }));
    for (const metric of own) known.set(metric.name, typeOf(metric, group, known.get(metric.of)));
  }
  return Object.freeze([...known.values()]);
}

const v3 = tableOf(TABLES["3.1"]);

export const metrics = Object.freeze({ "2.0": tableOf(TABLES["2.0"]), "3.0": v3, "3.1": v3, "4.0": tableOf(TABLES["4.0"]) });
