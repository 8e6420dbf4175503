// What would help, and by how much it does not fit: each line is an answer of the library, and trying it gives it: node page/tests/helps.mjs PAGE SEED
import assert from 'node:assert/strict';
import { answers, lib, station, task, typed } from './load.mjs';

const { judge, judgeWide } = answers;
const ROUNDS = 300;
let seed = Number(process.argv[3]);
function random(n) {
    seed = (Math.imul(seed, 1664525) + 1013904223) >>> 0;
    return Math.floor(seed / 4294967296 * n);
}

function randomTable() {
    const [q, w, m] = [[1, 5, 10][random(3)], [0, 1, 3][random(3)], 1 + random(3)];
    const policy = [1, 2, 4, 4, 5][random(5)];
    const rows = Array.from({ length: 2 + random(7) }, () => {
        const tmin = q * (10 + random(40));
        return task(1 + Math.floor((tmin - 2 * w - 1) * (30 + random(65)) / 100), tmin, tmin + q * random(20), [0, 500, 2000, 40000][random(4)]);
    });
    return typed(rows, station(policy, policy === 5 ? 1 : m, { q, w, edition: 1 + random(2) }));
}

// A help tried on the table as a click tries it.
const TRIED = {
    processors: (table, help) => ({ ...table, m: String(help.m) }),
    off: (table, help) => ({ ...table, rows: table.rows.map(row => (row.id === help.id ? { ...row, on: false } : row)) }),
    slower: (table, help) => ({ ...table, rows: table.rows.map(row => (row.id === help.id ? { ...row, tmax: String(help.tmax) } : row)) }),
    order: (table, help) => ({ ...table, rows: help.ids.map(id => table.rows.find(row => row.id === id)) }),
};

// Every help holds when it is tried, and a task or a processor that is not offered would not have helped.
function holdHelps(table, model, ask, found) {
    for (const help of found) {
        const after = ask(lib, TRIED[help.kind](table, help));
        assert.deepEqual([after.told.number, after.told.step], [0, help.step], `${help.kind}: ${JSON.stringify(table)}`);
    }
    for (const read of model.used) {
        const isOffered = found.some(help => help.kind === 'off' && help.id === read.id);
        const without = ask(lib, TRIED.off(table, read));
        assert.equal(without.told.number === 0, isOffered, 'a task off');
    }
}

const tally = { tables: 0, refused: 0 };
while (tally.refused < ROUNDS) {
    const table = randomTable();
    const model = judge(lib, table);
    tally.tables += 1;
    if (model.told.number !== 7) continue;
    const { room, station: settings } = model;
    tally.refused += 1;
    const sum = model.used.reduce((all, read) => all + read.load, 0);
    assert.equal(room.used, sum, 'the loads add up to what is used');
    assert.ok((room.own ?? room.pooled) < 0 || model.stuck !== undefined, 'it is too much, or a task has no place');
    if (model.stuck !== undefined) {
        assert.equal(lib.plain(model.tasks.slice(0, model.stuck + 1), settings).number, 7, 'the task has no place');
        assert.equal(lib.plain(model.tasks.slice(0, model.stuck), settings).number, 0, 'the tasks before it do');
    }
    const found = [...answers.helps(lib, model)].filter(Boolean);
    holdHelps(table, model, judge, found);
    for (const help of found) tally[help.kind] = (tally[help.kind] ?? 0) + 1;
}
for (const kind of ['processors', 'off', 'slower']) assert.ok(tally[kind] > 0, `no help of the kind ${kind}`);

// First fit puts both of 39 per cent on one processor, where neither of 59 fits any more; the biggest first fit.
const ordered = typed([390, 390, 590, 590].map(c => task(c, 1000, 1000, 0)), station(4, 2));
const order = [...answers.helps(lib, judge(lib, ordered))].find(help => help?.kind === 'order');
assert.deepEqual(order.ids, [3, 4, 1, 2]);
holdHelps(ordered, judge(lib, ordered), judge, [...answers.helps(lib, judge(lib, ordered))].filter(Boolean));

// Tasks that need several cores.
let wideFound = 0;
for (let i = 0; i < ROUNDS; i++) {
    const rows = Array.from({ length: 1 + random(4) }, () => {
        const tmin = 6 + random(30);
        const tmax = tmin + random(20);
        return { c: Math.min(16 * tmin, tmax + 1 + random(4 * tmin)), l: 1 + random(tmin - 2), tmin, tmax, e: [0, 3000, 20000][random(3)] };
    });
    const table = typed(rows, { m: 1 + random(6) });
    const model = judgeWide(lib, table);
    if (model.told.number !== 7) continue;
    const found = [...answers.helpsWide(lib, model)].filter(Boolean);
    holdHelps(table, model, judgeWide, found);
    wideFound += found.length;
}
assert.ok(wideFound > 0);
console.log(`${JSON.stringify(tally)}, and ${wideFound} helps for several cores`);
