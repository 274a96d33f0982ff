/** Parses, normalizes and scores CVSS vectors of v2, v3.0, v3.1 and v4.0, by a library whose functions are proved. */

declare global {
  // A program without the types of the web or of Node has these names too.
  namespace WebAssembly {
    interface Module {}
  }
  interface Response {}
}

/** A version of the standard. */
export type Version = "2.0" | "3.0" | "3.1" | "4.0";

/** The severity of a score, in words. CVSS v2 has only `low`, `medium` and `high`. */
export type Severity = "none" | "low" | "medium" | "high" | "critical";

/** Which groups of metrics a score of v4.0 counts: base, environmental, threat (CVSS v4.0, section 1.3). */
export type Nomenclature = "CVSS-B" | "CVSS-BE" | "CVSS-BT" | "CVSS-BTE";

/** Why a text is rejected. */
export type Kind =
  | "invalid component"
  | "invalid prefix"
  | "unsupported version"
  | "unknown metric"
  | "invalid value"
  | "duplicate metric"
  | "missing metric"
  | "not UTF-8";

/**
 * A string, or the bytes of a text in UTF-8, which each call copies once. A string with a lone surrogate is rejected: it has no
 * UTF-8 encoding. A call throws a `RangeError` if the text is too long for memory, or the result for a string (512 MiB in Node).
 */
export type Text = string | Uint8Array;

/** Metrics by their abbreviations, such as `{ E: "A" }`. */
export type Metrics = Readonly<Record<string, string>>;

export interface Options {
  /**
   * Accepts and scores a v3 vector that lacks base metrics; without it, such a vector is rejected for the first one that is
   * missing. The option counts only if it is the object's own property: an inherited one does not.
   */
  readonly allowIncomplete?: boolean;
}

/** The scores of a vector by name. For v4.0 `base` is the score of CVSS-B, and the others are null. */
export interface Scores {
  readonly base: number;
  readonly temporal: number | null;
  readonly environmental: number | null;
}

/** The severities of these scores. */
export interface Severities {
  readonly base: Severity;
  readonly temporal: Severity | null;
  readonly environmental: Severity | null;
}

/** A value of a metric: how a vector spells it, its name in words, and a sentence that says what it means. */
export interface MetricValue {
  readonly value: string;
  readonly title: string;
  readonly description: string;
}

/** A metric of a version. */
export interface MetricType {
  /** The abbreviation, such as `AV`. */
  readonly name: string;
  /** The name in words, such as `Attack Vector`. */
  readonly title: string;
  readonly group: "base" | "temporal" | "threat" | "environmental" | "supplemental";
  /** Whether FIRST's documents require it: true for the base metrics. */
  readonly isMandatory: boolean;
  /** The question that a form asks. */
  readonly question: string;
  /** Its values, in the order in which a form offers them. */
  readonly values: readonly MetricValue[];
}

/** A metric of a vector, and its value. */
export interface Described {
  readonly metric: MetricType;
  readonly value: MetricValue;
}

/** A vector, or one of a subclass; or why the text is rejected. */
export type Parsed<Own extends Vector = Vector> =
  | { readonly ok: true; readonly vector: Own }
  | { readonly ok: false; readonly error: CvssError };

/** The class `Vector`, or a subclass whose constructor takes the same arguments. */
export type VectorClass<Own extends Vector = Vector> = new (text: Text, options?: Options) => Own;

/** A vector that was found in a text, or what was probably meant as one: then it has an error in place of the vector. */
export type Match = {
  /** Where it begins, from 0: in UTF-16 code units, as `String.prototype.slice` counts, or in bytes if the text is bytes. */
  readonly index: number;
  readonly text: string;
} & (
  | { readonly vector: Vector; readonly error?: undefined }
  | { readonly vector?: undefined; readonly error: CvssError }
);

/** Why a text or metrics are rejected. The message says it in words. */
export class CvssError extends Error {
  constructor(message: string, kind: Kind, metric?: string | null, value?: string | null);
  readonly kind: Kind;
  /** The abbreviation of the metric whose value is invalid, that is duplicate, or that is missing; else null. */
  readonly metric: string | null;
  /** The part of the text that the message quotes, which may be empty; null if it quotes none. */
  readonly value: string | null;
  /** The error as JSON: its own properties and the message. */
  toJSON(): { kind: Kind; metric: string | null; value: string | null; message: string };
}

/** A vector. It never changes. */
export class Vector {
  /** Parses a text, and throws a `CvssError` if it is rejected. */
  constructor(text: Text, options?: Options);
  /** Parses a text without throwing a `CvssError`. */
  static parse<Own extends Vector>(this: VectorClass<Own>, text: Text, options?: Options): Parsed<Own>;
  /** The vector of a version with these metrics, in any order. */
  static fromMetrics<Own extends Vector>(
    this: VectorClass<Own>,
    version: Version,
    metrics: Metrics,
    options?: Options,
  ): Own;
  /** The text that was given; if it was bytes, the canonical text. */
  readonly given: string;
  /** The canonical text, with the standard's order and case. */
  readonly text: string;
  readonly version: Version;
  /**
   * The score with all metrics in the vector. For v2 and v3: the environmental score if an environmental metric is defined, else
   * the temporal score if a temporal metric is, else the base score. A metric is defined if its value is not `X` (v2: `ND`).
   */
  readonly score: number;
  /** `score` in tenths, an integer. */
  readonly tenths: number;
  /** The severity of `score`. */
  readonly severity: Severity;
  /** The base score; for v4.0 the score of CVSS-B. */
  readonly baseScore: number;
  readonly baseSeverity: Severity;
  /** The temporal score; null for v4.0. */
  readonly temporalScore: number | null;
  readonly temporalSeverity: Severity | null;
  /** The environmental score; null for v4.0. */
  readonly environmentalScore: number | null;
  readonly environmentalSeverity: Severity | null;
  readonly scores: Scores;
  readonly severities: Severities;
  /** Which groups of metrics a v4.0 vector has; null for v2 and v3. */
  readonly nomenclature: Nomenclature | null;
  /** The scores of a v4.0 vector if only these groups counted; null for v2 and v3. */
  readonly nomenclatureScores: Readonly<Record<Nomenclature, number>> | null;
  /** Whether all base metrics are present. */
  readonly isComplete: boolean;
  /** The values of the vector's metrics by abbreviation, in the order of the canonical text. */
  readonly metrics: Metrics;
  /** The vector's metrics and values with their names in words. */
  readonly described: readonly Described[];
  /** The vector with these metrics replaced or added. `X` and `ND` are values like any other. */
  withMetrics(metrics: Metrics): this;
  /** The vector without the metrics that are not defined (`X`, in v2 `ND`), which has the same scores. */
  withoutNotDefined(): this;
  /** The vector as an object of FIRST's JSON schema. */
  record(): Record<string, string | number>;
  /** How the score is computed: the weights or levels and the intermediate numbers. */
  explain(): Record<string, unknown>;
  toString(): string;
  toJSON(): string;
}

/** The score of a vector, as `Vector.score`; null if the text is rejected. */
export function score(text: Text, options?: Options): number | null;

/** The severity of a score by the bounds of a version. A number that is no score throws a `RangeError`. */
export function severityOf(version: Version, score: number): Severity;

/** The line that `cvss score` prints: canonical text, score and severity; or `error: ` and the message. */
export function scoreLine(text: Text, options?: Options): string;

/**
 * The vectors in any text, in order. A rejected text is a match too if it was probably meant as a vector: if it begins with
 * `CVSS:` and has a slash, its prefix is misspelled (`cvss:3.1/AV:N`, `CVSS3.1/AV:N`) or missing (`AV:N/AC:L/PR:N`), or it
 * is encoded as in a link or in JSON.
 */
export function find(text: Text, options?: Options): IterableIterator<Match>;

/** The metrics of each version, in the order of the canonical text. */
export const metrics: Readonly<Record<Version, readonly MetricType[]>>;

/**
 * Compiles the module in advance and without blocking. You need it only where a module may not be compiled synchronously, or
 * not from bytes. The source is a compiled module, its bytes, or a response with its bytes; without a source the module in this
 * package is compiled.
 */
export function init(
  source?: WebAssembly.Module | ArrayBuffer | ArrayBufferView | Response | Promise<Response>,
): Promise<void>;

/**
 * The compiled module, for a worker's `init`, or to call its functions. These are the ten functions of `cvss.h` that the
 * package calls, with pointers and lengths as numbers; a `size_t` in a struct has 64 bits. Free memory begins at
 * `__heap_base`.
 */
export function wasmModule(): WebAssembly.Module;

/** The version of this package. */
export const version: string;
