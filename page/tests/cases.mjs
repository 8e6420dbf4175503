// The bench cases of document 01, through the page's own calls and through what it makes of a typed table: node page/tests/cases.mjs PAGE
import assert from 'node:assert/strict';
import { answers, lib, station, task, typed } from './load.mjs';

const B = task(6, 10, 20, 1000);
const RIGID = task(1, 1000, 1000, 0);
const K = [task(3000, 4000, 5000, 10000), ...[450, 320, 350, 300, 230, 650].map(c => task(c, 1000, 1000, 0))];

// Name, tasks, station, step, periods, looks or processors.
const ACCEPTED = [
    ['A', [], station(1, 1), { step: 0, periods: [] }, 1],
    ['B', [B, B], station(1, 1), { step: 100, periods: [12, 12] }, 2],
    ['C', [task(5, 10, 20, 0), task(8, 10, 40, 3000)], station(1, 1), { step: 100, periods: [10, 16] }, 2],
    ['D', [task(6, 10, 11, 1000), task(6, 10, 30, 1000)], station(1, 1), { step: 146, periods: [11, 14] }, 3],
    ['E', [B, B, B], station(2, 2), { step: 100, periods: [12, 12, 12] }, 2],
    ['J', [task(1, 1, 1000000000, 1), task(1, 1, 1000000000, 1)], station(1, 1), { step: 500000, periods: [2, 2] }, 2],
    ['K', K, station(4, 3), { step: 5, periods: [4286, 1000, 1000, 1000, 1000, 1000, 1000], processors: [1, 2, 2, 3, 1, 2, 3] }],
    ['L, 32 tasks', Array(32).fill(RIGID), station(1, 1), { step: 0 }],
    ['L, the longest period', [task(1, 1, 1000000000, 0)], station(1, 1), { step: 0 }],
    ['L, 16 processors', [], station(1, 16), { step: 0 }],
    ['B in edition 2', [B, B], station(1, 1, { edition: 2 }), { step: 55, periods: [12, 12] }],
    ['D in edition 2', [task(6, 10, 11, 1000), task(6, 10, 30, 1000)], station(1, 1, { edition: 2 }), { step: 139, periods: [11, 14] }],
];

const REFUSED = [
    ['F, policy 3', [B, B, B], station(3, 2), 15, 0],
    ['I', Array(3).fill(task(1, 3, 3, 0)), station(1, 1), 7, 0],
    ['L, 33 tasks', Array(33).fill(RIGID), station(1, 1), 3, 33],
    ['L, a longer period', [task(1, 1, 1000000001, 0)], station(1, 1), 6, 0],
    ['L, 17 processors', [], station(1, 17), 2, 0],
];

for (const [name, rows, settings, due, looks] of ACCEPTED) {
    const told = lib.plain(rows, settings);
    const model = answers.judge(lib, typed(rows, settings));
    for (const [what, value] of Object.entries({ number: 0, place: 0, ...due })) {
        assert.deepEqual(told[what], value, `${name}: ${what}`);
        assert.deepEqual(model.told[what], value, `${name}, typed: ${what}`);
    }
    if (looks) assert.equal(lib.quick(rows, settings).looks, looks, `${name}: looks`);
    assert.equal(model.kind, rows.length > 0 ? 'fits' : 'empty', name);
    model.used.forEach((read, i) => assert.equal(read.period, told.periods[i], `${name}: the period shown of ${i}`));
}
for (const [name, rows, settings, number, place] of REFUSED) {
    const model = answers.judge(lib, typed(rows, settings));
    assert.deepEqual([model.kind, model.told.number, model.told.place], ['refused', number, place], name);
}

// What is shown of case I: each share is 333,334, and two parts are too much.
const I = answers.judge(lib, typed(Array(3).fill(task(1, 3, 3, 0)), station(1, 1)));
assert.deepEqual([I.used.map(read => read.load), I.room.own, I.room.used], [[333334, 333334, 333334], -2, 1000002]);

// Of case K: the loads of three processors, and what the first task loads one with.
const caseK = answers.judge(lib, typed(K, station(4, 3)));
assert.deepEqual([caseK.loads, caseK.used[0].load], [[1000000, 1000000, 1000000], 700000]);

// Document 02's task that needs several cores: its cost of 30 with a span of 5 takes 5 cores in 10 ticks and 2 in 20.
for (const [period, cores] of [[10, 5], [20, 2]]) {
    const model = answers.judgeWide(lib, typed([{ c: 30, l: 5, tmin: period, tmax: period, e: 0 }], { m: 16 }));
    assert.deepEqual([model.kind, model.used[0].period, model.used[0].cores], ['fits', period, cores]);
}
console.log(`${ACCEPTED.length} accepted and ${REFUSED.length} refused`);
