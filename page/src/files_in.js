// Texts, spreadsheets' tables and sheets that are pasted, dropped or opened.
import { FIELDS, bench, openTable, setRows, setSheet } from './bench.js';
import { showCompared } from './check_panel.js';
import { Clerk } from './clerk.js';
import { byId } from './dom.js';
import { parseTable } from './pasted.js';
import { change, rebuild } from './show.js';
import { checkedOf, lineOf, showStrip } from './strip.js';
import { counted } from './text.js';

const LONGEST_FILE = 65536;
const CHECKER = new Clerk();

let toastTimer = 0;

// A word at the bottom of the page, which goes after a while.
export function toast(words, kind = '') {
    const place = byId('toast');
    place.className = `toast show ${kind}`;
    place.textContent = words;
    clearTimeout(toastTimer);
    toastTimer = setTimeout(() => { place.className = 'toast'; }, 6000);
}

export function takeText(text) {
    const which = openTable();
    const { rows, left } = parseTable(text, FIELDS[which]);
    if (rows.length === 0) { toast('No table in that: a line for each task, with its numbers in columns.', 'bad'); return; }
    change('', () => {
        bench.state.tab = which;
        setRows(which, rows);
    });
    rebuild();
    const leftOut = left.length > 0 ? ` Left out, not understood: ${left.map(line => `line ${line}`).join(', ')}.` : '';
    toast(`${counted(rows.length, 'task', 'tasks')} read.${leftOut}`, left.length > 0 ? 'bad' : '');
}

function loadSheet(read) {
    change('', () => setSheet(read));
    rebuild();
}

function showChecked(name, compared) {
    bench.state.tab = 'check';
    rebuild();
    showStrip(byId('check-strip'), checkedOf(name, compared));
    byId('check-line').textContent = lineOf({ step: compared.ours?.step ?? 0, ...compared.verdict });
    showCompared(byId('check-table'), compared, () => loadSheet(compared.read));
}

// A sheet that is not filled in goes on the bench, any other is checked.
function takeSheet(bytes, name) {
    CHECKER.ask('compared', bytes, compared => {
        const { read } = compared;
        if (read.number !== 0 || read.results.length > 0 || bench.state.tab === 'check') { showChecked(name, compared); return; }
        loadSheet(read);
        toast(`${name}: ${counted(read.rows.length, 'task', 'tasks')} read.`);
    });
}

function takeFileBytes(bytes, name) {
    if (bytes.length > LONGEST_FILE) { toast('That file is too long for a table or a sheet.', 'bad'); return; }
    const isSheet = bytes.some(byte => byte < 9) || /\.(sheet|filled)$/i.test(name);
    if (isSheet) takeSheet(bytes, name);
    else takeText(new TextDecoder().decode(bytes));
}

export async function takeFile(file) {
    if (file) takeFileBytes(new Uint8Array(await file.arrayBuffer()), file.name);
}
