// The verdicts of ajv with JSON.parse on the rows of measure.c: the first line is the schema, each other one a document.
const fs = require("fs");
const Ajv = require("ajv");
const [schema, ...rows] = fs.readFileSync(process.argv[2], "utf8").trimEnd().split("\n");
const check = new Ajv().compile(JSON.parse(schema));
let best = Infinity;
for (let round = 0; round < 15; round++) {
  const begin = process.hrtime.bigint();
  let valid = 0;
  for (let i = 0; i < 20000; i++) if (check(JSON.parse(rows[i % rows.length]))) valid++;
  if (valid !== 20000) throw new Error("an answer is wrong");
  best = Math.min(best, Number(process.hrtime.bigint() - begin) / 20000);
}
console.log(`ajv with JSON.parse, 64 rows in turn: ${best.toFixed(0)} ns a row`);
