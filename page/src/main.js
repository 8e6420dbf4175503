// The page's buttons, keys and drops, and its start.
import { bench, openTable, restoreState, setExample } from './bench.js';
import { byId } from './dom.js';
import { takeFile, takeText } from './files_in.js';
import { SAVES } from './files_out.js';
import { MOST_PROCESSORS } from './library.js';
import { change, focusFirst, makeTables, rebuild, refresh, undo } from './show.js';

const each = (selector, act) => document.querySelectorAll(selector).forEach(act);
const on = (id, event, act) => byId(id).addEventListener(event, act);
const inField = event => event.target.closest?.('input, textarea');

function wireTabs() {
    const tabs = [...document.querySelectorAll('[role=tab]')];
    tabs.forEach((tab, i) => {
        tab.addEventListener('click', () => { bench.state.tab = tab.dataset.tab; rebuild(); });
        tab.addEventListener('keydown', event => {
            const step = { ArrowRight: 1, ArrowLeft: -1 }[event.key];
            if (!step) return;
            const next = tabs[(i + step + tabs.length) % tabs.length];
            next.click();
            next.focus();
        });
    });
}

function setBy(table, name, value, edit = '') {
    change(edit, () => { bench.state[table][name] = value; });
    refresh();
}

function wireSettings() {
    each('input[name=policy]', input => input.addEventListener('change', () => setBy('tasks', 'policy', Number(input.value))));
    each('input[name=edition]', input => input.addEventListener('change', () => setBy('tasks', 'edition', input.value)));
    for (const name of ['m', 'w', 'q']) on(`set-${name}`, 'input', event => setBy('tasks', name, event.target.value, `set ${name}`));
    on('set-wide-m', 'input', event => setBy('wide', 'm', event.target.value, 'set wide m'));
    each('[data-step]', button => button.addEventListener('click', () => {
        const { of, step } = button.dataset;
        const next = (Number(bench.state[of].m) || 1) + Number(step);
        setBy(of, 'm', String(Math.min(MOST_PROCESSORS, Math.max(1, next))));
    }));
    each('form', form => form.addEventListener('submit', event => { if (form.method !== 'dialog') event.preventDefault(); }));
}

function clearTable() {
    const which = openTable();
    change('', () => { bench.state[which].rows = []; });
    rebuild();
    focusFirst(which);
}

function closeMenu() { byId('save').open = false; }

function wireButtons() {
    on('undo', 'click', undo);
    on('print', 'click', () => window.print());
    for (const id of ['open', 'open-check']) on(id, 'click', () => byId('file').click());
    for (const [id, act] of Object.entries(SAVES)) on(id, 'click', () => { closeMenu(); act(); });
    on('clear', 'click', () => { closeMenu(); clearTable(); });
    on('example', 'click', () => { closeMenu(); change('', setExample); rebuild(); });
    on('file', 'change', event => { takeFile(event.target.files[0]); event.target.value = ''; });
    document.addEventListener('click', event => { if (!event.target.closest?.('#save')) closeMenu(); });
    document.addEventListener('keydown', event => {
        if (event.key === 'Escape' && byId('save').open) { closeMenu(); byId('save').querySelector('summary').focus(); }
        if ((event.ctrlKey || event.metaKey) && event.key === 'z' && !inField(event)) { event.preventDefault(); undo(); }
    });
}

function wirePaste() {
    const dialog = byId('paste-dialog');
    on('paste', 'click', () => { byId('paste-text').value = ''; dialog.showModal(); byId('paste-text').focus(); });
    dialog.addEventListener('close', () => { if (dialog.returnValue === 'take') takeText(byId('paste-text').value); });
    document.addEventListener('paste', event => {
        const text = event.clipboardData.getData('text');
        if (inField(event) || !text.trim()) return;
        event.preventDefault();
        takeText(text);
    });
}

function wireDrops() {
    let inside = 0;
    const count = change => {
        inside = Math.max(0, inside + change);
        document.body.classList.toggle('dragging', inside > 0);
    };
    document.addEventListener('dragenter', event => { event.preventDefault(); count(1); });
    document.addEventListener('dragleave', () => count(-1));
    document.addEventListener('dragover', event => event.preventDefault());
    document.addEventListener('drop', event => {
        event.preventDefault();
        count(-inside);
        const text = event.dataTransfer.getData('text');
        if (event.dataTransfer.files.length > 0) takeFile(event.dataTransfer.files[0]);
        else if (text) takeText(text);
    });
}

restoreState();
makeTables();
for (const wire of [wireTabs, wireSettings, wireButtons, wirePaste, wireDrops]) wire();
rebuild();
