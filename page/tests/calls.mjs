// The page's own calls beside the second program: node page/tests/calls.mjs PAGE CALLS ANSWERS COUNT
// Of a stream of calls (tests/second/README.md) the page makes those that it offers, the first COUNT of them, and each answer must be the one that
// stands in ANSWERS. The page lends outputs of its own size, so that a call whose outputs are shorter than it needs is none of them.
import assert from 'node:assert/strict';
import { readFileSync } from 'node:fs';
import { lib } from './load.mjs';

const [, , , callsPath, answersPath, due] = process.argv;
const MOST_TASKS = 32;
const MOST_PROCESSORS = 16;
const MOST_ROWS = 1024;
const LONGEST_LINE = 44;

// ---- the streams ----

function cut(path) {
    const bytes = readFileSync(path);
    const parts = [];
    for (let at = 0; at < bytes.length; at += 2 + bytes.readUInt16LE(at)) parts.push(bytes.subarray(at + 2, at + 2 + bytes.readUInt16LE(at)));
    return parts;
}

// Takes the fields of a call or an answer from the left.
function reader(bytes) {
    let at = 0;
    const taken = size => { at += size; return at - size; };
    const read = {
        u8: () => bytes.readUInt8(taken(1)),
        u16: () => bytes.readUInt16LE(taken(2)),
        u32: () => bytes.readUInt32LE(taken(4)),
        u64: () => bytes.readBigUInt64LE(taken(8)),
        i64: () => Number(bytes.readBigInt64LE(taken(8))),
        list: (n, one) => Array.from({ length: n }, one),
        rest: () => bytes.subarray(at),
    };
    read.verdict = () => ({ number: read.u8(), place: read.u32() });
    read.task = () => ({ c: read.u32(), tmin: read.u32(), tmax: read.u32(), e: read.u32() });
    read.wideTask = () => ({ c: read.u64(), l: read.u32(), tmin: read.u32(), tmax: read.u32(), e: read.u32() });
    read.result = () => ({ period: read.u32(), processor: read.u16() });
    read.settings = () => {
        const policy = read.u16();
        read.u8();
        const [m, count, w, q, edition] = read.list(5, read.u16);
        return { station: { policy, m, w, q, edition }, count };
    };
    return read;
}

// The stream has at most 32 rows; those past them are zeros.
const rowsOf = (n, one, zero) => Array.from({ length: n }, (_, i) => (i < MOST_TASKS ? one() : zero));
const ZERO = { c: 0, tmin: 0, tmax: 0, e: 0 };
const areEnough = (n, ...lengths) => n <= MOST_ROWS && (n > MOST_TASKS || lengths.every(length => length >= n));

// ---- one call of each kind: whether the page offers it, what the page answers, and what the second program answers, in the same form ----

const line = ({ number, place }) => Buffer.from(`refused ${number} at ${place}\n`);
const picked = (told, ...names) => Object.fromEntries(['number', 'place', ...names].map(name => [name, told[name]]));

function finder(find, hasLooks) {
    return (call, answer) => {
        const { station } = call.settings();
        const n = call.u16();
        const lengths = [call.u8(), call.u8()];
        if (!areEnough(n, ...lengths)) return null;
        const told = find(rowsOf(n, call.task, ZERO), station);
        const theirs = { ...answer.verdict(), step: answer.u32(), ...(hasLooks ? { looks: answer.u16() } : {}) };
        return planned(told, theirs, answer, n, lengths, hasLooks ? ['step', 'looks'] : ['step']);
    };
}

function planned(told, theirs, answer, n, lengths, names) {
    const [periods, processors] = [answer.list(lengths[0], answer.u32), answer.list(lengths[1], answer.u16)];
    if (theirs.number === 0) Object.assign(theirs, { periods: periods.slice(0, n), processors: processors.slice(0, n) });
    return [picked(told, ...names, ...(told.number === 0 ? ['periods', 'processors'] : [])), theirs];
}

function margin(call, answer) {
    const { station } = call.settings();
    const [n, step] = [call.u16(), call.u32()];
    if (n > MOST_ROWS) return null;
    return [picked(lib.margin(rowsOf(n, call.task, ZERO), station, step), 'margin'), { ...answer.verdict(), margin: answer.i64() }];
}

function read(call, answer) {
    const told = lib.read(call.rest());
    const theirs = answer.verdict();
    if (theirs.number !== 0) return [picked(told), theirs];
    const [policy, m, settingsCount, w, q, edition, n, r] = answer.list(8, answer.u16);
    const [rows, results] = [answer.list(MOST_TASKS, answer.task).slice(0, n), answer.list(MOST_TASKS, answer.result).slice(0, r)];
    return [picked(told, 'settingsCount', 'station', 'rows', 'results'), { ...theirs, settingsCount, station: { policy, m, w, q, edition }, rows, results }];
}

function write(call, answer) {
    const { station, count } = call.settings();
    const [n, r, size] = call.list(3, call.u16);
    if (n > MOST_ROWS || r > MOST_TASKS || size < 6 + 2 * count + 16 * n + 6 * r) return null;
    const rows = rowsOf(n, call.task, ZERO);
    const told = lib.write(rows, station, count, call.list(r, call.result));
    const theirs = { ...answer.verdict(), count: answer.u16() };
    const bytes = answer.rest().subarray(0, theirs.count);
    return [{ ...picked(told, 'count'), bytes: Buffer.from(told.bytes ?? []) }, { ...theirs, bytes }];
}

function fill(call, answer) {
    const told = lib.fill(call.rest());
    return [told.number === 0 ? Buffer.from(told.bytes) : line(told), answer.rest()];
}

function wide(call, answer) {
    const [m, n] = [call.u16(), call.u16()];
    const lengths = [call.u8(), call.u8()];
    if (!areEnough(n, ...lengths)) return null;
    const told = lib.wide(rowsOf(n, call.wideTask, { ...ZERO, l: 0 }), m);
    return planned(told, { ...answer.verdict(), step: answer.u32() }, answer, n, lengths, ['step']);
}

const check = (call, answer) => [picked(lib.check(call.rest())), answer.verdict()];

function importText(call, answer) {
    const length = call.u8();
    const text = call.rest();
    if (!areEnough(text.filter(byte => byte === 10).length, length)) return null;
    const told = lib.importText(text);
    const theirs = { ...answer.verdict(), count: answer.u16() };
    return [{ ...picked(told, 'count'), rows: told.rows ?? [] }, { ...theirs, rows: answer.list(length, answer.task).slice(0, theirs.count) }];
}

function exportText(call, answer) {
    const [n, size] = [call.u16(), call.u16()];
    if (n > MOST_ROWS || (n <= MOST_TASKS && size < LONGEST_LINE * n)) return null;
    const told = lib.exportText(rowsOf(n, call.task, ZERO));
    const theirs = { ...answer.verdict(), count: answer.u16() };
    return [{ ...picked(told, 'count'), bytes: Buffer.from(told.bytes ?? []) }, { ...theirs, bytes: answer.rest().subarray(0, theirs.count) }];
}

function proposal(call, answer) {
    const { station } = call.settings();
    const [n, step, entries, length] = [call.u16(), call.u32(), call.u8(), call.u8()];
    if (n > MOST_ROWS || entries > MOST_TASKS || length < Math.min(station.m, MOST_PROCESSORS)) return null;
    const rows = rowsOf(n, call.task, ZERO);
    const told = lib.checkProposal(rows, station, step, call.list(entries, call.u16));
    const theirs = answer.verdict();
    const loads = theirs.number === 0 ? answer.list(station.m, answer.u32) : undefined;
    return [picked(told, 'loads'), { ...theirs, loads }];
}

function relief(call, answer) {
    const { station } = call.settings();
    const [n, length] = [call.u16(), call.u8()];
    if (!areEnough(n, length)) return null;
    const told = lib.relief(rowsOf(n, call.task, ZERO), station);
    const theirs = { ...answer.verdict(), least: answer.u32(), more: answer.u32() };
    const without = theirs.number === 0 ? answer.list(n, answer.u32) : undefined;
    return [picked(told, 'least', 'more', 'without'), { ...theirs, without }];
}

function record(call, answer) {
    const { station } = call.settings();
    const [step, task] = [call.u32(), call.task()];
    return [[lib.reason(task, station), lib.share(task, station, step)], [answer.u8(), answer.u32()]];
}

const wideRecord = (call, answer) => [lib.wideReason(call.wideTask()), answer.u8()];

const KINDS = {
    1: finder(lib.plain, false), 2: finder(lib.quick, true), 3: margin, 4: read, 5: write, 7: fill, 8: wide, 9: check,
    11: importText, 12: exportText, 13: proposal, 15: relief, 16: record, 17: wideRecord,
};

// ---- the comparison ----

const [calls, theirs] = [cut(callsPath), cut(answersPath)];
assert.equal(calls.length, theirs.length, 'as many answers as calls');
const made = {};
let total = 0;
for (let i = 0; i < calls.length && total < Number(due); i++) {
    const call = reader(calls[i]);
    const kind = call.u8();
    const both = KINDS[kind]?.(call, reader(theirs[i])) ?? null;
    if (both === null) continue;
    assert.deepEqual(both[0], both[1], `call ${i}, of kind ${kind}`);
    made[kind] = (made[kind] ?? 0) + 1;
    total += 1;
}
console.log(`${total} calls, by kind ${JSON.stringify(made)}`);
assert.equal(total, Number(due), 'the stream has too few calls that the page offers');
for (const kind of Object.keys(KINDS)) assert.ok(made[kind] >= 100, `fewer than 100 calls of kind ${kind}`);
