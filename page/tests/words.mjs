// Each refusal in words, at the cell that it is about: node page/tests/words.mjs PAGE
import assert from 'node:assert/strict';
import { answers, lib, station, task, typed } from './load.mjs';

const { judge, judgeWide } = answers;

// ---- a record that is not good: the first limit that it breaks, in each of its cells ----

const RECORDS = [
    [task(0, 10, 20, 1), {}, ['c'], 'The cost is 0'],
    [task(11, 10, 20, 1), {}, ['c', 'tmin'], 'Cost 11 is more than the shortest period 10.'],
    [task(7, 10, 20, 1), { w: 2 }, ['c', 'tmin'], 'Cost 7 and two swaps of 2 are more than the shortest period 10.'],
    [task(6, 20, 10, 1), {}, ['tmin', 'tmax'], 'The shortest period 20 is above the longest 10.'],
    [task(6, 10, 1000000001, 1), {}, ['tmax'], 'The longest period is above 1,000,000,000.'],
    [task(6, 10, 20, 1000001), {}, ['e'], 'The elasticity is above 1,000,000.'],
    [task(6, 11, 20, 1), { q: 5 }, ['tmin'], 'The shortest period 11 is no whole number of notches of 5.'],
    [task(6, 10, 21, 1), { q: 5 }, ['tmax'], 'The longest period 21 is no whole number of notches of 5.'],
];
const GOOD = task(5, 10, 20, 1);
RECORDS.forEach(([row, more, cells, words], i) => {
    const model = judge(lib, typed([GOOD, row], station(1, 2, more)));
    assert.deepEqual([model.told.number, model.told.place, model.used[0].problems], [6, 1, []], words);
    assert.deepEqual(model.used[1].problems.map(problem => problem.cells), [cells], words);
    assert.ok(model.used[1].problems[0].words.startsWith(words), model.used[1].problems[0].words);
    assert.ok(answers.REASONS_SAID[model.told.reason].length > 5, `reason ${i}`);
});

const wide = (c, l, tmin, tmax, e) => ({ c, l, tmin, tmax, e });
const WIDE_RECORDS = [
    [wide(30, 0, 10, 20, 1), ['l'], 'The span is 0'],
    [wide(30, 10, 10, 20, 1), ['l', 'tmin'], 'The span 10 must be below the shortest period 10.'],
    [wide(30, 5, 20, 10, 1), ['tmin', 'tmax'], 'The shortest period 20 is above the longest 10.'],
    [wide(20, 5, 10, 20, 1), ['tmax', 'c'], 'The cost 20 must be above the longest period 20'],
    [wide(161, 5, 10, 20, 1), ['c', 'tmin'], 'The cost 161 is above 16 times the shortest period 10.'],
    [wide(2000000000, 5, 1000000000, 1000000001, 1), ['tmax'], 'The longest period is above 1,000,000,000.'],
    [wide(30, 5, 10, 20, 1000001), ['e'], 'The elasticity is above 1,000,000.'],
];
for (const [row, cells, words] of WIDE_RECORDS) {
    const model = judgeWide(lib, typed([row], { m: 16 }));
    assert.deepEqual([model.told.number, model.used[0].problems.map(problem => problem.cells)], [6, [cells]], words);
    assert.ok(model.used[0].problems[0].words.startsWith(words), model.used[0].problems[0].words);
    assert.ok(answers.WIDE_REASONS_SAID[model.told.wideReason].length > 5, words);
}

// ---- settings ----

const SETTINGS = [
    [station(1, 0), 'm', 'There are 1 to 16 processors.'],
    [station(1, 17), 'm', 'There are 1 to 16 processors.'],
    [station(5, 2), 'm', 'One-core RM runs on 1 processor.'],
    [station(1, 1, { q: 0 }), 'q', 'The notch is at least 1 tick.'],
    [station(1, 1, { edition: 3 }), 'edition', 'The edition is 1 or 2.'],
];
for (const [settings, name, words] of SETTINGS) {
    const model = judge(lib, typed([GOOD], settings));
    assert.deepEqual([model.told.number, model.settings], [2, { [name]: words }], words);
}
assert.deepEqual(Object.keys(judge(lib, typed([], station(1, 17, { q: 0 }))).settings), ['m', 'q'], 'two settings at once');
assert.equal(judgeWide(lib, typed([], { m: 17 })).settings.m, 'There are 1 to 16 cores.');
for (const text of ['', 'two', '65536', '-1', '1.5', '99999999999']) {
    assert.equal(judge(lib, { ...typed([GOOD], station(1, 1)), w: text }).settings.w, 'A whole number from 0 to 65535.', text);
}

// ---- cells that are no number, or missing ----

const CELLS = [['lots', '“lots” is no whole number that fits.'], ['4294967296', '“4294967296” is no whole number that fits.'], ['', 'The cost is missing.']];
for (const [text, words] of CELLS) {
    const table = typed([GOOD], station(1, 1));
    table.rows[0].c = text;
    const model = judge(lib, table);
    assert.deepEqual([model.kind, model.used[0].problems[0].cells, model.used[0].problems[0].words], ['cells', ['c'], words]);
}

// A row that is off, and an empty one, are not looked at.
const off = typed([GOOD, task(0, 0, 0, 0)], station(1, 1));
off.rows[1].on = false;
assert.deepEqual([judge(lib, off).kind, judge(lib, off).used.length], ['fits', 1]);

// Every refusal has its sentence.
for (let number = 1; number <= 19; number++) assert.ok(answers.SENTENCES[number].length > 10, `the sentence of ${number}`);
console.log(`${RECORDS.length + WIDE_RECORDS.length} records, ${SETTINGS.length} settings`);
