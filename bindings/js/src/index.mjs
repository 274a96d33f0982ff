// What the package gives; cvss.d.ts says what each is.

export { CvssError } from "./error.mjs";
export { find } from "./find.mjs";
export { version } from "./generated.mjs";
export { metrics } from "./metrics.mjs";
export { init, wasmModule } from "./module.mjs";
export { score, scoreLine, severityOf } from "./score.mjs";
export { Vector } from "./vector.mjs";
