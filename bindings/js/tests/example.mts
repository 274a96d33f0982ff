import { CvssError, Vector, find, init, metrics, score, scoreLine, severityOf, version, wasmModule } from "cvss-proved";
import type { Match, MetricType, Nomenclature, Severity, Version } from "cvss-proved";

const vector = new Vector("CVSS:3.1/A:H/I:H/C:H/S:U/UI:N/PR:N/AC:L/AV:N", { allowIncomplete: true });
const severity: Severity = vector.severity;
const tenths: number = vector.tenths;
const nomenclature: Nomenclature | null = vector.nomenclature;
const base: number = vector.baseScore;
const baseSeverity: Severity = vector.baseSeverity;
const temporal: number | null = vector.temporalScore ?? vector.scores.temporal;
const environmental: Severity | null = vector.environmentalSeverity;
const changed: Vector = vector.withMetrics({ E: "P" }).withoutNotDefined();
const made: Vector = Vector.fromMetrics("4.0", vector.metrics, { allowIncomplete: false });

const parsed = Vector.parse("CVSS:3.1/AV:Q");
const said: string = parsed.ok ? parsed.vector.text : `${parsed.error.kind} ${parsed.error.metric} ${parsed.error.value}`;
const printed: string = parsed.ok ? parsed.vector.toJSON() : parsed.error.toJSON().message;

function textOf(match: Match): string {
  return match.vector ? match.vector.text : match.error.message;
}

function isUrgent(text: string): boolean {
  try {
    return new Vector(text).score >= 7;
  } catch (error) {
    if (error instanceof CvssError && error.kind === "missing metric") return false;
    throw error;
  }
}

class Own extends Vector {
  isUrgent(): boolean {
    return this.score >= 7;
  }
}

function urgencies(text: string): boolean[] {
  const own = Own.parse(text);
  const set: Own = new Own(text).withMetrics({ E: "P" });
  const all: Own[] = [set, set.withoutNotDefined(), Own.fromMetrics("3.1", set.metrics)];
  return [own.ok && own.vector.isUrgent(), ...all.map((vector) => vector.isUrgent())];
}

const titles = (of: Version): string[] => metrics[of].map((metric: MetricType) => metric.title);
const texts: string[] = [...find("(AV:N/AC:L/Au:N/C:N/I:N/A:C)")].map(textOf);
const bytes: number | null = score(new Uint8Array([65]), { allowIncomplete: true });

export async function start(): Promise<string> {
  await init();
  await init(wasmModule());
  await init(new Uint8Array(8).buffer);
  const own = [severity, tenths, nomenclature, base, baseSeverity, temporal, environmental, changed, made, vector.given];
  return [...own, said, printed, texts, bytes, scoreLine("x"), severityOf("3.1", 7.5), version].join();
}

export { isUrgent, titles, urgencies };
