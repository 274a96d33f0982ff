// Each statement is an error of the types.
import { Vector, metrics, score } from "cvss-proved";

const vector = new Vector("AV:N/AC:L/Au:N/C:N/I:N/A:C");
// @ts-expect-error
vector.severity === "High";
// @ts-expect-error
vector.version === "4";
// @ts-expect-error
vector.text = "";
// @ts-expect-error
vector.withMetrics({ E: 1 });
// @ts-expect-error
new Vector(5);
// @ts-expect-error
Vector.parse("AV:N").vector.text;
// @ts-expect-error
Vector.fromMetrics("1.0", {});
// @ts-expect-error
["AV:N"].map(Vector.parse);
// @ts-expect-error
metrics["2.0"].push();
// @ts-expect-error
score("AV:N").toFixed(1);
// @ts-expect-error
vector.temporalScore.toFixed(1);
// @ts-expect-error
new Vector("AV:N", { strict: true });
// @ts-expect-error
score("AV:N", true);
