export * from "./cvss.js";
