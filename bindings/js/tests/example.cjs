const { Vector } = require("cvss-proved");

const vector = new Vector("CVSS:3.1/A:H/I:H/C:H/S:U/UI:N/PR:N/AC:L/AV:N");
console.log(`${vector} ${vector.score} ${vector.severity}`);
const { error } = Vector.parse("CVSS:3.1/AV:q");
console.log(error.message);
