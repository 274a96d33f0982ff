// The words for the numbers of cvss.h, and the other way round.

// The flag of cvss.h.
export const ALLOW_INCOMPLETE = 1;

export const VERSIONS = new Map([[20, "2.0"], [30, "3.0"], [31, "3.1"], [40, "4.0"]]);
const NUMBERS = new Map([...VERSIONS].map((pair) => [pair[1], pair[0]]));
export const SEVERITIES = ["none", "low", "medium", "high", "critical"];
export const NOMENCLATURES = ["CVSS-B", "CVSS-BE", "CVSS-BT", "CVSS-BTE"];

// The options of a call as flags. An option counts only if the object itself has it, and not its prototype.
export function flagsOf(options) {
  const isGiven = options != null && Object.hasOwn(options, "allowIncomplete");
  return isGiven && options.allowIncomplete ? ALLOW_INCOMPLETE : 0;
}

export function numberOf(version) {
  const number = NUMBERS.get(version);
  if (number === undefined) throw new TypeError(`a version is "2.0", "3.0", "3.1" or "4.0", not ${String(version)}`);
  return number;
}
