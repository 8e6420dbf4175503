// A table of tasks: cells to type in, and beside each task what it is granted.
import { colourOf, el, nameOf } from './dom.js';
import { makeMover } from './mover.js';
import { rangeOf } from './range.js';
import { grouped, isNumeric, tidy } from './text.js';

const LABELS = { c: ['Cost', 'C'], l: ['Span', 'L'], tmin: ['Shortest', 'Tmin'], tmax: ['Longest', 'Tmax'], e: ['Elasticity', 'E'] };
// From this many digits on, columns are wider and digits smaller.
const LONG = 7;

// ---- making ----

function makeHead(fields, where) {
    const column = (name, ...words) => el('th', { class: `col-${name}`, scope: 'col' }, words);
    const ends = el('span', { class: 'bar-ends' }, el('span', {}, 'Tmin'), el('span', {}, 'Tmax'));
    return el('thead', {}, el('tr', {},
        column('no', 'No.'), column('on', 'On'), column('name', 'Task'),
        fields.map(field => column(`num col-${field}`, LABELS[field][0], el('small', {}, LABELS[field][1]))),
        column('bar', ends), column('period', 'Period'), column('where', where),
        column('remove', el('span', { class: 'hidden' }, 'Remove'))));
}

// A cell: in it stands what was typed while it has the focus, and else its number in threes.
function makeCell(row, field, handlers) {
    const isNumber = field !== 'name';
    const input = el('input', {
        type: 'text', inputmode: isNumber ? 'numeric' : 'text', autocomplete: 'off', spellcheck: 'false',
        class: `cell ${isNumber ? 'number' : 'word'}`, 'data-field': field,
    });
    const shown = () => (isNumber && isNumeric(row[field]) ? grouped(tidy(row[field])) : row[field]);
    input.value = shown();
    input.addEventListener('focus', () => {
        if (input.value === row[field]) return;
        input.value = row[field];
        input.select();
    });
    input.addEventListener('blur', () => { input.value = shown(); });
    input.addEventListener('input', () => handlers.onEdit(row.id, field, input.value));
    input.addEventListener('paste', event => handlers.onPaste(event, row.id, field));
    return input;
}

function makeControls(row, handlers) {
    const onBox = el('input', {
        type: 'checkbox', role: 'switch', class: 'switch', checked: row.on, onchange: () => handlers.onSwitch(row.id, onBox.checked),
    });
    const remove = el('button', { class: 'remove', type: 'button', onclick: () => handlers.onRemove(row.id) }, '×');
    const handle = el('button', { class: 'handle', type: 'button' }, el('span', { class: 'record' }));
    return { onBox, remove, handle };
}

function makeRow(row, fields, handlers) {
    const inputs = Object.fromEntries(['name', ...fields].map(field => [field, makeCell(row, field, handlers)]));
    const controls = makeControls(row, handlers);
    const cell = (name, ...children) => el('td', { class: `col-${name}` }, children);
    const cells = { bar: cell('bar'), period: cell('period'), where: cell('where') };
    const tr = el('tr', { 'data-id': row.id },
        cell('no', controls.handle), cell('on', controls.onBox), cell('name', inputs.name),
        fields.map(field => cell(`num col-${field}`, inputs[field])),
        cells.bar, cells.period, cells.where, cell('remove', controls.remove));
    return { tr, inputs, ...controls, ...cells };
}

// ---- showing ----

function label(parts, read) {
    const name = read.blank ? 'a new task' : nameOf(read);
    for (const [field, input] of Object.entries(parts.inputs)) {
        input.setAttribute('aria-label', field === 'name' ? 'Name of the task' : `${LABELS[field].join(' ')} of ${name}`);
    }
    parts.onBox.setAttribute('aria-label', `${name} on`);
    parts.remove.setAttribute('aria-label', `Remove ${name}`);
    parts.handle.setAttribute('aria-label', `Move ${name}: arrow keys, or drag`);
}

function markCell(input, problem, describedBy) {
    input.classList.toggle('bad', !!problem && !problem.missing);
    input.classList.toggle('missing', !!problem?.missing);
    const attributes = { 'aria-invalid': 'true', 'aria-describedby': describedBy, title: problem?.words };
    for (const [name, value] of Object.entries(attributes)) {
        if (problem) input.setAttribute(name, value);
        else input.removeAttribute(name);
    }
}

// What is wrong stands in the row, across the columns of what is granted, and each cell that it is about points to it.
function showProblems(parts, read) {
    const id = `why-row-${read.id}`;
    for (const [field, input] of Object.entries(parts.inputs)) {
        markCell(input, read.problems.find(problem => problem.cells.includes(field)), id);
    }
    const hard = read.problems.find(problem => !problem.missing);
    parts.tr.classList.toggle('wrong', !!hard);
    parts.bar.colSpan = hard ? 3 : 1;
    if (hard) parts.bar.replaceChildren(el('div', { class: 'why', id }, hard.words));
    else if (read.problems.length > 0) parts.bar.replaceChildren(el('div', { class: 'why soft', id, 'aria-label': read.problems[0].words }, 'not finished'));
}

function wasOf(read, before) {
    if (!before || before.period === read.period) return null;
    const isSlower = read.period > before.period;
    return el('span', { class: `was ${isSlower ? 'slower' : 'faster'}`, title: `was ${before.period}` },
        el('span', { class: 'arrow', 'aria-hidden': 'true' }, isSlower ? '▲' : '▼'), el('span', { class: 'was-number' }, `was ${grouped(before.period)}`));
}

function whereOf(read, before) {
    if (read.cores !== undefined) return el('span', { class: 'badge cores' }, String(read.cores));
    if (read.processor === 0) return el('span', { class: 'any' }, 'any');
    const moved = before?.processor > 0 && before.processor !== read.processor;
    const words = `processor ${read.processor}${moved ? `, was ${before.processor}` : ''}`;
    return el('span', { class: `badge${moved ? ' moved' : ''}`, title: words, 'aria-label': words }, String(read.processor));
}

function showGranted(parts, read, before) {
    parts.bar.replaceChildren(...rangeOf(read, before));
    if (read.period !== undefined) {
        parts.period.replaceChildren(...[wasOf(read, before), el('span', { class: 'digits' }, grouped(read.period))].filter(Boolean));
        parts.where.replaceChildren(whereOf(read, before));
        return;
    }
    const nothing = read.on ? el('span', { class: 'digits none' }, '–') : el('span', { class: 'any' }, 'off');
    parts.period.replaceChildren(...(read.blank ? [] : [nothing]));
    parts.where.replaceChildren();
}

function showRow(parts, read, before, isStuck) {
    parts.tr.classList.toggle('off', !read.on && !read.blank);
    parts.tr.classList.toggle('blank', read.blank);
    parts.tr.classList.toggle('stuck', isStuck);
    parts.tr.style.setProperty('--p', colourOf(read.cores === undefined ? read.processor : read.record + 1));
    parts.onBox.checked = read.on;
    parts.onBox.disabled = read.blank;
    parts.handle.disabled = read.blank;
    parts.handle.firstChild.textContent = read.record ?? '';
    label(parts, read);
    showGranted(parts, read, before);
    showProblems(parts, read);
}

// ---- the table ----

// Up, down and Enter walk a column.
function walkColumn(body, event) {
    const step = event.key === 'Enter' && event.shiftKey ? -1 : { ArrowDown: 1, Enter: 1, ArrowUp: -1 }[event.key];
    const { field } = event.target.dataset;
    if (!step || !field || event.altKey || event.isComposing) return;
    const column = [...body.querySelectorAll(`input[data-field="${field}"]`)];
    const next = column[column.indexOf(event.target) + step];
    if (!next) return;
    next.focus();
    next.select();
    event.preventDefault();
}

// Handlers: onEdit, onPaste, onSwitch, onRemove, onMove, each with the row's id.
export function makeTable(place, fields, where, handlers) {
    const parts = new Map();
    const body = el('tbody');
    const table = el('table', { class: 'tasks' }, makeHead(fields, where), body);
    place.replaceChildren(table);
    body.addEventListener('keydown', event => walkColumn(body, event));
    makeMover(body, handlers.onMove);

    function add(row) {
        const made = makeRow(row, fields, handlers);
        parts.set(row.id, made);
        body.append(made.tr);
    }
    return {
        add,
        build(rows) {
            parts.clear();
            body.replaceChildren();
            rows.forEach(add);
            table.classList.toggle('long', rows.some(row => fields.some(field => row[field].length > LONG)));
        },
        focus(id, field) { (parts.get(id)?.inputs[field] ?? parts.get(id)?.handle)?.focus(); },
        light(id, on) { parts.get(id)?.tr.classList.toggle('lit', on); },
        show(model, before) {
            table.classList.toggle('long', model.reads.some(read => fields.some(field => read.row[field].length > LONG)));
            for (const read of model.reads.filter(each => parts.has(each.id))) {
                showRow(parts.get(read.id), read, before?.get(read.id), model.stuck !== undefined && model.stuck === read.record);
            }
        },
    };
}
