// Vectors, and what is known of them.

import { CvssError, errorOf, isRejected, written } from "./error.mjs";
import { componentsOf } from "./given.mjs";
import { call, decoded, errorAt, first, numbers, octets, put, ready, unwantedAt, vectorAt, wasm } from "./memory.mjs";
import { metrics } from "./metrics.mjs";
import { ALLOW_INCOMPLETE, NOMENCLATURES, SEVERITIES, VERSIONS, flagsOf, numberOf } from "./words.mjs";

// The numbers of the struct CvssVector of cvss.h after its size.
const VERSION = 0;
const SCORE = 1;
const SEVERITY = 2;
const BASE = 3;
const BASE_SEVERITY = 4;
const TEMPORAL = 5;
const TEMPORAL_SEVERITY = 6;
const ENVIRONMENTAL = 7;
const ENVIRONMENTAL_SEVERITY = 8;
const NOMENCLATURE = 9;
const BY_NOMENCLATURE = 10;
const IS_COMPLETE = 14;

const scoreOf = (tenths) => (tenths < 0 ? null : tenths / 10);
const nameOf = (number) => (number < 0 ? null : SEVERITIES[number]);

// The numbers of the vector that was parsed last. A list is faster than a part of the memory.
function numbersOfVector() {
  const own = (vectorAt >> 2) + 1;
  return [
    numbers[own + VERSION],
    numbers[own + SCORE],
    numbers[own + SEVERITY],
    numbers[own + BASE],
    numbers[own + BASE_SEVERITY],
    numbers[own + TEMPORAL],
    numbers[own + TEMPORAL_SEVERITY],
    numbers[own + ENVIRONMENTAL],
    numbers[own + ENVIRONMENTAL_SEVERITY],
    numbers[own + NOMENCLATURE],
    numbers[own + BY_NOMENCLATURE],
    numbers[own + BY_NOMENCLATURE + 1],
    numbers[own + BY_NOMENCLATURE + 2],
    numbers[own + BY_NOMENCLATURE + 3],
    numbers[own + IS_COMPLETE],
  ];
}

// Parses the text in memory, and returns the length of what is written after it: the canonical text or the message. It fits
// most often, and a call with its arguments in place is faster.
function parsed(end, length, flags) {
  const size = wasm.cvss_parse(first, length, flags, vectorAt, errorAt, end, octets.length - end) >>> 0;
  return size <= octets.length - end ? size : call("cvss_parse", end, first, length, flags, vectorAt, errorAt);
}

// What a function writes of the text of a vector, which was accepted.
function writtenOf(name, text, ...words) {
  ready();
  const length = put(text, first);
  return written(name, first + length, first, length, ALLOW_INCOMPLETE, ...words);
}

export class Vector {
  // a property, so that what compares objects by their properties tells vectors apart
  given;
  #numbers;
  #text = null;

  constructor(text, options) {
    ready();
    const flags = flagsOf(options);
    // bytes may change at any time if another thread has them too, so they are copied once
    const length = put(text, first);
    const end = first + length;
    const size = parsed(end, length, flags);
    if (isRejected()) throw errorOf(end, size);
    this.#numbers = numbersOfVector();
    this.given = typeof text === "string" ? text : decoded(end, size);
    // a subclass may add fields
    if (new.target === Vector) Object.freeze(this);
    else Object.defineProperty(this, "given", { __proto__: null, writable: false, configurable: false });
  }

  static parse(text, options) {
    try {
      return { ok: true, vector: new this(text, options) };
    } catch (error) {
      if (error instanceof CvssError) return { ok: false, error };
      throw error;
    }
  }

  static fromMetrics(version, metrics, options) {
    ready();
    const number = numberOf(version);
    const components = componentsOf(metrics);
    const flags = flagsOf(options);
    const length = put(components, first);
    return new this(written("cvss_from_metrics", first + length, number, first, length, flags), options);
  }

  get text() {
    return (this.#text ??= writtenOf("cvss_parse", this.given, unwantedAt));
  }

  get version() {
    return VERSIONS.get(this.#numbers[VERSION]);
  }

  get tenths() {
    return this.#numbers[SCORE];
  }

  get score() {
    return this.#numbers[SCORE] / 10;
  }

  get severity() {
    return SEVERITIES[this.#numbers[SEVERITY]];
  }

  get baseScore() {
    return this.#numbers[BASE] / 10;
  }

  get baseSeverity() {
    return SEVERITIES[this.#numbers[BASE_SEVERITY]];
  }

  get temporalScore() {
    return scoreOf(this.#numbers[TEMPORAL]);
  }

  get temporalSeverity() {
    return nameOf(this.#numbers[TEMPORAL_SEVERITY]);
  }

  get environmentalScore() {
    return scoreOf(this.#numbers[ENVIRONMENTAL]);
  }

  get environmentalSeverity() {
    return nameOf(this.#numbers[ENVIRONMENTAL_SEVERITY]);
  }

  get scores() {
    return { base: this.baseScore, temporal: this.temporalScore, environmental: this.environmentalScore };
  }

  get severities() {
    return { base: this.baseSeverity, temporal: this.temporalSeverity, environmental: this.environmentalSeverity };
  }

  get nomenclature() {
    const number = this.#numbers[NOMENCLATURE];
    return number < 0 ? null : NOMENCLATURES[number];
  }

  get nomenclatureScores() {
    const own = this.#numbers;
    if (own[NOMENCLATURE] < 0) return null;
    return Object.fromEntries(NOMENCLATURES.map((name, index) => [name, own[BY_NOMENCLATURE + index] / 10]));
  }

  get isComplete() {
    return this.#numbers[IS_COMPLETE] === 1;
  }

  get metrics() {
    const components = this.version === "2.0" ? this.text : this.text.slice("CVSS:3.1/".length);
    // faster than entries, and no setter of a prototype is called
    return Object.freeze(JSON.parse(`{"${components.replaceAll(":", '":"').replaceAll("/", '","')}"}`));
  }

  get described() {
    const table = metrics[this.version];
    const own = this.metrics;
    return Object.keys(own).map((name) => {
      const metric = table.find((each) => each.name === name);
      return { metric, value: metric.values.find(({ value }) => value === own[name]) };
    });
  }

  withMetrics(metrics) {
    const components = componentsOf(metrics);
    const second = first + put(this.text, first);
    const length = put(components, second);
    const words = [first, second - first, second, length, ALLOW_INCOMPLETE];
    return this.#another(written("cvss_with_metrics", second + length, ...words));
  }

  withoutNotDefined() {
    return this.#another(writtenOf("cvss_without_not_defined", this.text));
  }

  // One that is incomplete was made so, and may stay so.
  #another(text) {
    return new this.constructor(text, { allowIncomplete: true });
  }

  record() {
    return JSON.parse(writtenOf("cvss_record", this.text));
  }

  explain() {
    return JSON.parse(writtenOf("cvss_explain", this.text));
  }

  toString() {
    return this.text;
  }

  toJSON() {
    return this.text;
  }
}
