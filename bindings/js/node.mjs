// For Node: one Vector and one CvssError, whether a program imports this package or requires it.
import cvss from "./cvss.js";

export const { CvssError, Vector, find, init, metrics, score, scoreLine, severityOf, version, wasmModule } = cvss;
