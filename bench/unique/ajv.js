// Times ajv's uniqueItems on the parsed array of the whole numbers below a bound. It is told that all are numbers: without that it
// compares each element with each.
const Ajv = require('ajv');
const check = new Ajv().compile({ type: 'array', items: { type: 'number' }, uniqueItems: true });
for (const bound of [1000, 4000, 10000, 40000, 100000, 400000]) {
    const numbers = Array.from({ length: bound }, (_, number) => number);
    let best = Infinity;
    for (let round = 0; round < 9; round++) {
        const start = process.hrtime.bigint();
        const unique = check(numbers);
        const time = Number(process.hrtime.bigint() - start);
        if (!unique) throw new Error('not unique');
        best = Math.min(best, time);
    }
    console.log(`${bound} numbers: ajv ${Math.round(best / 1000)} us`);
}
