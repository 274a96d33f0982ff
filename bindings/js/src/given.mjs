// Metrics that are given as an object, such as { E: "A" }.

import { CvssError } from "./error.mjs";

// Whether an object is a list, a map or the like. What other code has given to all objects does not count.
function isIterable(object) {
  const iterator = object[Symbol.iterator];
  return iterator !== undefined && iterator !== Object.prototype[Symbol.iterator];
}

// The metrics as components joined by slashes. The library would read one with a slash as two.
export function componentsOf(metrics) {
  if (metrics === null || typeof metrics !== "object" || isIterable(metrics)) {
    throw new TypeError('metrics are an object of names and values, such as { E: "A" }');
  }
  const components = Object.keys(metrics).map((name) => {
    const value = metrics[name];
    if (typeof value !== "string") throw new TypeError(`the value of ${name} is a string, not ${typeof value}`);
    const component = `${name}:${value}`;
    if (component.includes("/")) {
      const message = `invalid CVSS metric group component: \`${component}\``;
      throw new CvssError(message, "invalid component", null, component);
    }
    return component;
  });
  return components.join("/");
}
