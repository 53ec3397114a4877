// The verdicts of ajv with JSON.parse on the rows of rows.py, written to the folder's file verdicts.js, and what a row takes.
const fs = require("fs");
const Ajv = require("ajv");
const folder = process.argv[2];
const check = new Ajv().compile(JSON.parse(fs.readFileSync(`${folder}/schema.json`, "utf8")));
const rows = fs.readFileSync(`${folder}/rows.jsonl`, "utf8").trimEnd().split("\n");
const parsed = rows.map((row) => JSON.parse(row));

// The best of several rounds over all rows, in nanoseconds a row.
function time(call, values) {
  let best = Infinity;
  for (let round = 0; round < 40; round++) {
    const begin = process.hrtime.bigint();
    let done = 0;
    for (const value of values) if (call(value) !== undefined) done++;
    const took = Number(process.hrtime.bigint() - begin) / values.length;
    if (done !== values.length) throw new Error("a row has no answer");
    best = Math.min(best, took);
  }
  return best.toFixed(0).padStart(7);
}

console.log(`  ajv with JSON.parse:               ${time((row) => check(JSON.parse(row)), rows)} ns a row`);
console.log(`  JSON.parse alone:                  ${time((row) => JSON.parse(row), rows)} ns a row`);
console.log(`  ajv on rows that are parsed:       ${time((row) => check(row), parsed)} ns a row`);
fs.writeFileSync(`${folder}/verdicts.js`, rows.map((row) => (check(JSON.parse(row)) ? "valid" : "invalid") + "\n").join(""));
