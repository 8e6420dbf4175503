// What is on the bench goes to the library with every change, and what it says is shown.
import { FIELDS, begin, bench, keepBlankRow, keepState, moveRow, rowOf, setColumn, takeBack } from './bench.js';
import { Clerk } from './clerk.js';
import { showCores } from './cores.js';
import { byId, el } from './dom.js';
import { takeText } from './files_in.js';
import { showHelps } from './help_panel.js';
import { showLoads } from './loads.js';
import { lineOf, showStrip, verdictOf } from './strip.js';
import { makeTable } from './table.js';

const JUDGE = new Clerk();
const HELPER = new Clerk();

// Of each table: the model that is shown, the plan that was last accepted, and the one before the last change.
export const shown = { tasks: { model: null, accepted: null, before: null }, wide: { model: null, accepted: null, before: null } };

const tables = {};

export function change(edit, act) {
    if (begin(edit)) for (const side of Object.values(shown)) side.before = side.accepted ?? side.before;
    act();
}

export function undo() {
    for (const side of Object.values(shown)) side.before = side.accepted ?? side.before;
    if (takeBack()) rebuild();
}

// ---- the library's answers ----

const planOf = model => new Map(model.used.map(read => [read.id, { period: read.period, processor: read.processor }]));

function showTable(which, model) {
    const side = shown[which];
    side.model = model;
    if (model.kind === 'fits') side.accepted = planOf(model);
    tables[which].show(model, side.before);
    byId(`${which}-line`).textContent = model.told ? lineOf(model.told) : '';
}

function oneProcessor({ settings, station }) {
    if (!settings.m || station.policy !== 5) return null;
    return el('button', { type: 'button', onclick: () => { change('', () => { bench.state.tasks.m = '1'; }); rebuild(); } }, 'Use 1 processor');
}

function showSetting(input, value, problem) {
    if (document.activeElement !== input) input.value = value;
    if (problem) input.setAttribute('aria-invalid', 'true');
    else input.removeAttribute('aria-invalid');
    input.closest('.setting').classList.toggle('bad', !!problem);
    byId(input.getAttribute('aria-describedby')).textContent = problem ?? '';
}

function showSettings() {
    const { tasks, wide } = bench.state;
    for (const name of ['m', 'w', 'q']) showSetting(byId(`set-${name}`), tasks[name], shown.tasks.model.settings[name]);
    showSetting(byId('set-wide-m'), wide.m, shown.wide.model.settings.m);
    for (const input of document.querySelectorAll('input[name=policy]')) input.checked = Number(input.value) === tasks.policy;
    for (const input of document.querySelectorAll('input[name=edition]')) input.checked = input.value === String(tasks.edition);
    byId('why-edition').textContent = shown.tasks.model.settings.edition ?? '';
}

function showAll(models) {
    for (const [which, model] of Object.entries(models)) showTable(which, model);
    const { tasks, wide } = models;
    showSettings();
    for (const which of Object.keys(models)) byId(`${which}-strip`).setAttribute('aria-busy', 'false');
    showStrip(byId('tasks-strip'), verdictOf(tasks), oneProcessor(tasks));
    showLoads(byId('tasks-loads'), tasks, tables.tasks.light);
    showStrip(byId('wide-strip'), verdictOf(wide));
    showCores(byId('wide-loads'), wide, tables.wide.light);
    byId('save-svg').disabled = tasks.kind !== 'fits';
    askForHelp();
}

// ---- what would help ----

function askForHelp() {
    for (const which of Object.keys(shown)) byId(`${which}-helps`).replaceChildren();
    const which = bench.state.tab;
    const model = shown[which]?.model;
    HELPER.leave();
    if (model?.told?.number !== 7) return;
    const found = [];
    const showFound = busy => showHelps(byId(`${which}-helps`), model, found, busy, help => applyHelp(which, help));
    showFound(true);
    HELPER.ask('helps', { which, model }, help => { found.push(help); showFound(true); }, () => showFound(false));
}

const APPLY = {
    processors: (table, help) => { table.m = String(help.m); },
    off: (table, help) => { table.rows.find(row => row.id === help.id).on = false; },
    slower: (table, help) => { table.rows.find(row => row.id === help.id).tmax = String(help.tmax); },
    order: (table, help) => {
        const rank = new Map(help.ids.map((id, i) => [id, i]));
        table.rows.sort((a, b) => (rank.get(a.id) ?? rank.size) - (rank.get(b.id) ?? rank.size));
    },
};

function applyHelp(which, help) {
    change('', () => APPLY[help.kind](bench.state[which], help));
    rebuild();
    byId(`${which}-strip`).focus();
}

// ---- the tables ----

export function refresh() {
    byId('undo').disabled = bench.undone.length === 0;
    keepState();
    HELPER.leave();
    for (const which of Object.keys(shown)) byId(`${which}-strip`).setAttribute('aria-busy', 'true');
    JUDGE.ask('judged', { tasks: bench.state.tasks, wide: bench.state.wide }, showAll);
}

export function rebuild() {
    for (const which of Object.keys(shown)) {
        keepBlankRow(which);
        tables[which].build(bench.state[which].rows);
    }
    for (const tab of document.querySelectorAll('[role=tab]')) {
        const isOpen = tab.dataset.tab === bench.state.tab;
        tab.setAttribute('aria-selected', String(isOpen));
        tab.tabIndex = isOpen ? 0 : -1;
        byId(tab.getAttribute('aria-controls')).hidden = !isOpen;
    }
    refresh();
}

// One column of values goes down from the cell; a whole table takes the table's place.
function pasteInto(which, event, id, field) {
    const text = event.clipboardData.getData('text');
    const lines = text.replace(/\r\n?/g, '\n').replace(/\n$/, '').split('\n');
    const isTable = lines.some(line => /[\t;]|,.*,/.test(line));
    if (!isTable && lines.length === 1) return;
    event.preventDefault();
    event.stopPropagation();
    if (isTable) { takeText(text); return; }
    change('', () => setColumn(which, id, field, lines.map(line => line.trim())));
    rebuild();
}

function move(which, id, place, field) {
    const before = bench.state[which].rows.map(row => row.id).join();
    change('', () => moveRow(which, id, place));
    if (before === bench.state[which].rows.map(row => row.id).join()) { bench.undone.pop(); return; }
    rebuild();
    tables[which].focus(id, field);
    const at = bench.state[which].rows.findIndex(row => row.id === id);
    byId('moved').textContent = `${rowOf(which, id).name || 'The task'} is now in row ${at + 1}.`;
}

// The focus goes to the row that takes its place.
function remove(which, id) {
    const { rows } = bench.state[which];
    const next = rows[rows.findIndex(row => row.id === id) + 1];
    change('', () => { bench.state[which].rows = rows.filter(row => row.id !== id); });
    rebuild();
    if (next) tables[which].focus(next.id, 'name');
}

function handlersOf(which) {
    const act = (edit, id, doIt, showIt) => { change(edit, () => doIt(rowOf(which, id))); showIt(); };
    return {
        onEdit(id, field, value) {
            act(`${which} ${id} ${field}`, id, row => { row[field] = value; }, refresh);
            const added = keepBlankRow(which);
            if (added) { tables[which].add(added); refresh(); }
        },
        onSwitch: (id, on) => act('', id, row => { row.on = on; }, refresh),
        onRemove: id => remove(which, id),
        onPaste: (event, id, field) => pasteInto(which, event, id, field),
        onMove: (id, place, field = 'handle') => move(which, id, place, field),
    };
}

export const focusFirst = which => tables[which].focus(bench.state[which].rows[0].id, 'name');

export function makeTables() {
    tables.tasks = makeTable(byId('tasks-table'), FIELDS.tasks, 'Proc.', handlersOf('tasks'));
    tables.wide = makeTable(byId('wide-table'), FIELDS.wide, 'Cores', handlersOf('wide'));
}
