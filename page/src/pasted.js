// Tables that somebody pastes or drops as text, and the table with its names as text again.
import { isNumeric, tidy } from './text.js';

const HEADERS = {
    name: /^(name|job|task|what|label)s?$/,
    on: /^(on|active|enabled|use)$/,
    c: /^(c|cost|work|wcet)$/,
    l: /^(l|span)$/,
    tmin: /^(tmin|t_min|min|shortest)$/,
    tmax: /^(tmax|t_max|max|longest)$/,
    e: /^(e|elasticity|elastic)$/,
};
const HEADINGS = { c: 'C', l: 'L', tmin: 'Tmin', tmax: 'Tmax', e: 'E' };

// The fields of a line; a mark between quotes is part of its field.
function splitLine(line, mark) {
    if (mark === ' ') return line.trim().split(/\s+/);
    const cells = [''];
    let quoted = false;
    for (const each of line) {
        if (each === '"') quoted = !quoted;
        else if (each === mark && !quoted) cells.push('');
        else cells[cells.length - 1] += each;
    }
    return cells.map(cell => cell.trim());
}

// What stands between fields: the first of these that cuts a line into enough of them, blanks last.
function markOf(lines, fields) {
    return ['\t', ';', ',', ' '].find(mark => lines.some(line => splitLine(line, mark).length >= fields.length)) ?? ',';
}

const headerOf = cell => Object.keys(HEADERS).find(key => HEADERS[key].test(cell.toLowerCase().replace(/\s*[([].*$/, '')));

// A row by the columns that a header line names.
function namedRow(cells, order, fields) {
    const row = { on: true, name: '', ...Object.fromEntries(fields.map(field => [field, ''])) };
    order.forEach((key, i) => {
        const cell = cells[i] ?? '';
        if (key === 'on') row.on = !/^(0|no|off|false|-)$/i.test(cell);
        else if (key === 'name') row.name = cell;
        else if (key) row[key] = tidy(cell);
    });
    return row;
}

// A row without a header line: the numbers stand together, with a name before or behind them.
function bareRow(cells, fields) {
    const n = fields.length;
    const numeric = cells.map(isNumeric);
    const whole = numeric.findIndex((_, i) => i + n <= cells.length && numeric.slice(i, i + n).every(Boolean));
    const from = whole >= 0 ? Math.max(whole, numeric.lastIndexOf(true) - n + 1) : cells.length - n;
    if (from < 0 || !numeric.some(Boolean)) return null;
    const before = cells.slice(0, from).filter(cell => cell && !isNumeric(cell)).join(' ');
    const row = { on: true, name: before || cells.slice(from + n).join(' ').trim() };
    fields.forEach((field, i) => { row[field] = tidy(cells[from + i]); });
    return row;
}

// The rows of a text, and the numbers of the lines, from 1, that are none. `fields` are the columns of numbers that a row has.
export function parseTable(text, fields) {
    const lines = text.replace(/^\ufeff/, '').split(/\r\n?|\n/).map((line, i) => ({ text: line, number: i + 1 }));
    const full = lines.filter(line => line.text.trim() && !/^\s*#/.test(line.text));
    const mark = markOf(full.map(line => line.text), fields);
    const split = full.map(line => ({ ...line, cells: splitLine(line.text, mark) }));
    const order = split.length ? split[0].cells.map(headerOf) : [];
    const hasOrder = fields.every(field => order.includes(field));
    const hasHeader = hasOrder || (split.length > 0 && !split[0].cells.some(isNumeric));
    const body = hasHeader ? split.slice(1) : split;
    const read = body.map(line => ({ line, row: hasOrder ? namedRow(line.cells, order, fields) : bareRow(line.cells, fields) }));
    return { rows: read.filter(one => one.row).map(one => one.row), left: read.filter(one => !one.row).map(one => one.line.number) };
}

// The table with its names and switches, as parseTable reads it.
export function withNames(rows, fields) {
    const quoted = cell => (/[",;\n]/.test(cell) ? `"${cell.replace(/"/g, "'")}"` : cell);
    const head = ['on', 'name', ...fields.map(field => HEADINGS[field])];
    const lines = rows.map(row => [row.on ? '1' : '0', quoted(row.name), ...fields.map(field => row[field])]);
    return [head, ...lines].map(line => `${line.join(',')}\n`).join('');
}
