// From what stands in the table to what the library says of it. There is no page in it, so a worker runs it, and the tests do.
import { FULL, WHOLE } from './library.js';
import { isNumeric, tidy } from './text.js';
import { SETTINGS_SAID, missingSaid, noNumberSaid, reasonSaid, wideReasonSaid } from './words.js';

export const TASK_FIELDS = ['c', 'tmin', 'tmax', 'e'];
export const WIDE_FIELDS = ['c', 'l', 'tmin', 'tmax', 'e'];
const POOLED = 1;
export const FIRST_FIT = 4;
export const ONE_CORE_RM = 5;

export const isBlank = (row, fields) => !row.name.trim() && fields.every(field => !row[field].trim());

// ---- cells ----

// A cell's number as the library's import reads it, or null.
function numberIn(lib, text) {
    const told = lib.importText(new TextEncoder().encode(`${tidy(text)},0,0,0\n`));
    return told.number === 0 ? told.rows[0].c : null;
}

// The C of a task that needs several cores has more bits than a number of the import.
function longNumberIn(text) {
    const digits = tidy(text);
    return isNumeric(digits) && digits.length <= 15 ? Number(digits) : null;
}

// One row: its numbers, and what is wrong with its cells. A row that is switched off is not looked at.
function readRow(lib, row, fields) {
    const read = { row, id: row.id, blank: isBlank(row, fields), on: row.on, task: {}, problems: [] };
    if (read.blank || !row.on) return read;
    for (const field of fields) {
        const text = row[field].trim();
        const value = fields === WIDE_FIELDS && field === 'c' ? longNumberIn(text) : numberIn(lib, text);
        if (value === null) read.problems.push(text === '' ? missingSaid(field) : noNumberSaid(field, text));
        read.task[field] = value;
    }
    return read;
}

function readSetting(lib, table, name, problems) {
    const value = numberIn(lib, String(table[name]));
    if (value !== null && value <= 65535) return value;
    problems[name] = SETTINGS_SAID.number;
    return 0;
}

function readTable(lib, table, fields, names) {
    const settings = {};
    const station = { policy: table.policy };
    for (const name of names) station[name] = readSetting(lib, table, name, settings);
    const reads = table.rows.map(row => readRow(lib, row, fields));
    const used = reads.filter(read => !read.blank && read.on);
    used.forEach((read, i) => { read.record = i; });
    return { station, settings, reads, used, tasks: used.map(read => read.task) };
}

export const isUnfinished = model => Object.keys(model.settings).length > 0 || model.used.some(read => read.problems.length > 0);

export const readTasks = (lib, table) => readTable(lib, table, TASK_FIELDS, ['m', 'w', 'q', 'edition']);

// ---- tasks ----

// What is left of all processors together, and of the policy's own test; first fit has no margin.
function roomAt(lib, { tasks, station }, step) {
    const all = station.m * WHOLE;
    const pooled = lib.margin(tasks, { ...station, policy: POOLED }, step).margin;
    const own = station.policy === FIRST_FIT ? null : lib.margin(tasks, station, step).margin;
    return { all, used: all - pooled, pooled, own, kept: own === null ? 0 : pooled - own };
}

// What a task loads a processor with: its share, and in edition 2 its charge, which is the load of a processor that has it alone.
function loadOf(lib, task, station, step) {
    return station.edition === 2 ? lib.checkProposal([task], { ...station, m: 1 }, step, [1]).loads[0] : lib.share(task, station, step);
}

function setLoads(lib, model, step) {
    for (const read of model.used) read.load = loadOf(lib, read.task, model.station, step);
    model.room = roomAt(lib, model, step);
}

function grant(lib, model) {
    const { station, tasks, told, used } = model;
    used.forEach((read, i) => {
        read.period = told.periods[i];
        read.processor = told.processors[i];
    });
    setLoads(lib, model, told.step);
    if (station.policy === FIRST_FIT) model.loads = lib.checkProposal(tasks, station, told.step, told.processors).loads;
    return { ...model, kind: used.length > 0 ? 'fits' : 'empty' };
}

// Which settings are misset: each is asked alone, beside settings that are good.
function markSettings(lib, { station, settings }) {
    const misset = one => lib.plain([], { policy: POOLED, m: 1, w: 0, q: 1, edition: 1, ...one }).number === 2;
    for (const name of ['m', 'q', 'edition']) if (misset({ [name]: station[name] })) settings[name] = SETTINGS_SAID[name];
    if (!settings.m && misset({ policy: station.policy, m: station.m })) settings.m = SETTINGS_SAID.oneCore;
}

function markRecords(lib, { station, used, told }) {
    for (const read of used) {
        const number = lib.reason(read.task, station);
        if (number > 0) read.problems.push(reasonSaid(number, read.task, station));
        if (read.record === told.place) told.reason = number;
    }
}

// First fit: the first task with which the table up to it fits at no step. A table that fits does so without its last task too.
function firstStuck(lib, { tasks, station }) {
    let fitting = 0;
    let stuck = tasks.length;
    while (stuck - fitting > 1) {
        const middle = Math.floor((fitting + stuck) / 2);
        if (lib.plain(tasks.slice(0, middle), station).number === 7) stuck = middle;
        else fitting = middle;
    }
    return stuck - 1;
}

// By how much it does not fit, with every task at its longest period.
function measure(lib, model) {
    setLoads(lib, model, FULL);
    if (model.station.policy === FIRST_FIT && model.room.pooled >= 0) model.stuck = firstStuck(lib, model);
}

// The whole answer for a table. Its kind is `empty`, `cells` (what is typed is not finished), `fits`, or `refused` by the library.
export function judge(lib, table) {
    const model = readTasks(lib, table);
    if (isUnfinished(model)) return { ...model, kind: 'cells' };
    model.told = lib.plain(model.tasks, model.station);
    if (model.told.number === 0) return grant(lib, model);
    if (model.told.number === 2) markSettings(lib, model);
    if (model.told.number === 6) markRecords(lib, model);
    if (model.told.number === 7) measure(lib, model);
    return { ...model, kind: 'refused' };
}

// ---- tasks that need several cores ----

function markWideRecords(lib, { used, told }) {
    for (const read of used) {
        const number = lib.wideReason(read.task);
        if (number > 0) read.problems.push(wideReasonSaid(number, read.task));
        if (read.record === told.place) told.wideReason = number;
    }
}

export function judgeWide(lib, table) {
    const model = readTable(lib, table, WIDE_FIELDS, ['m']);
    if (isUnfinished(model)) return { ...model, kind: 'cells' };
    model.told = lib.wide(model.tasks, model.station.m);
    const { told, used } = model;
    if (told.number === 2) model.settings.m = SETTINGS_SAID.cores;
    if (told.number === 6) markWideRecords(lib, model);
    if (told.number !== 0) return { ...model, kind: 'refused' };
    used.forEach((read, i) => {
        read.period = told.periods[i];
        read.cores = told.processors[i];
    });
    return { ...model, kind: used.length > 0 ? 'fits' : 'empty' };
}
