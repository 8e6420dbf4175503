// What stands on the bench, as plain data: both tables with their settings, and which tab is open. Every change can be taken back.
import { EXAMPLE, WIDE_EXAMPLE } from './example.js';
import { MOST_ROWS } from './library.js';
import { TASK_FIELDS, WIDE_FIELDS, isBlank } from './plan.js';

const KEPT_AS = 'eelbasket-bench';
const MOST_UNDONE = 100;

export const FIELDS = { tasks: TASK_FIELDS, wide: WIDE_FIELDS };

let nextId = 1;
const withIds = rows => rows.slice(0, MOST_ROWS - 1).map(row => ({ ...row, id: nextId++ }));
const blankRow = fields => ({ id: nextId++, on: true, name: '', ...Object.fromEntries(fields.map(field => [field, ''])) });
const exampleState = () => ({
    tab: 'tasks',
    tasks: { ...EXAMPLE, rows: withIds(EXAMPLE.rows) },
    wide: { ...WIDE_EXAMPLE, rows: withIds(WIDE_EXAMPLE.rows) },
});

export const bench = { state: exampleState(), undone: [], lastEdit: '' };

// Before a change: keeps what stands, to be taken back to. Typing on in one cell is one change.
export function begin(edit = '') {
    if (edit !== '' && edit === bench.lastEdit) return false;
    bench.lastEdit = edit;
    bench.undone.push(JSON.stringify(bench.state));
    if (bench.undone.length > MOST_UNDONE) bench.undone.shift();
    return true;
}

export function takeBack() {
    const last = bench.undone.pop();
    if (last === undefined) return false;
    bench.state = JSON.parse(last);
    bench.lastEdit = '';
    return true;
}

// The table that texts and saves mean: the one that is open.
export const openTable = () => (bench.state.tab === 'wide' ? 'wide' : 'tasks');

export const rowOf = (which, id) => bench.state[which].rows.find(row => row.id === id);

export function setRows(which, rows) {
    bench.state[which].rows = withIds(rows);
}

export function setExample() {
    const tab = openTable();
    bench.state = { ...exampleState(), tab };
}

// There is always one empty row at the end to type in; a new one is handed back.
export function keepBlankRow(which) {
    const { rows } = bench.state[which];
    if (rows.length > 0 && isBlank(rows[rows.length - 1], FIELDS[which])) return null;
    rows.push(blankRow(FIELDS[which]));
    return rows[rows.length - 1];
}

// A row goes to another place among the rows; the empty one stays the last.
export function moveRow(which, id, to) {
    const { rows } = bench.state[which];
    const from = rows.findIndex(row => row.id === id);
    const place = Math.max(0, Math.min(to, rows.length - 2));
    if (from === place || isBlank(rows[from], FIELDS[which])) return false;
    rows.splice(place, 0, ...rows.splice(from, 1));
    return true;
}

// A column of values typed or pasted downwards from a row.
export function setColumn(which, id, field, values) {
    const { rows } = bench.state[which];
    const from = rows.findIndex(row => row.id === id);
    values.forEach((value, i) => {
        if (!rows[from + i]) rows.push(blankRow(FIELDS[which]));
        rows[from + i][field] = value;
    });
}

// A sheet has no names: those of a table of as many tasks stay.
export function setSheet(read) {
    const old = bench.state.tasks.rows.filter(row => row.on && !isBlank(row, TASK_FIELDS));
    const named = (row, i) => ({ on: true, name: old.length === read.rows.length ? old[i].name : '', ...row });
    const texts = row => Object.fromEntries(TASK_FIELDS.map(field => [field, String(row[field])]));
    const { policy, m, w, q, edition } = read.station;
    bench.state.tasks = {
        policy, m: String(m), w: String(w), q: String(q), edition: String(edition), settingsCount: read.settingsCount,
        rows: withIds(read.rows.map(texts).map(named)),
    };
    bench.state.tab = 'tasks';
}

// What is on the bench stays in the browser; one that keeps nothing for a file begins with the example.
export function keepState() {
    try {
        localStorage.setItem(KEPT_AS, JSON.stringify({ state: bench.state, nextId }));
    } catch { /* nothing is kept */ }
}

export function restoreState() {
    try {
        const kept = JSON.parse(localStorage.getItem(KEPT_AS));
        if (!kept?.state?.tasks || !kept.state.wide) return;
        bench.state = kept.state;
        nextId = kept.nextId;
        if (bench.state.tab === 'check') bench.state.tab = 'tasks';
    } catch { /* nothing was kept */ }
}
