// What can be saved: the filled sheet, the office's text, the table with its names, and a picture.
import { FIELDS, bench, openTable } from './bench.js';
import { stationSaid } from './check_panel.js';
import { Clerk } from './clerk.js';
import { el } from './dom.js';
import { toast } from './files_in.js';
import { pictureOf } from './picture.js';
import { isBlank } from './plan.js';
import { withNames } from './pasted.js';
import { shown } from './show.js';
import { lineOf } from './strip.js';
import { grouped } from './text.js';

const WRITER = new Clerk();

function save(name, content, type) {
    const link = el('a', { href: URL.createObjectURL(new Blob([content], { type })), download: name });
    document.body.append(link);
    link.click();
    link.remove();
    setTimeout(() => URL.revokeObjectURL(link.href), 10000);
}

// What the library writes of the table on the bench is saved, and a refusal is said.
function saveWritten(what, name, type) {
    WRITER.ask(what, bench.state.tasks, told => {
        if (told.unfinished) toast('Finish the table first.', 'bad');
        else if (told.number !== 0) toast(lineOf(told), 'bad');
        else save(name, told.bytes, type);
    });
}

export const SAVES = {
    'save-sheet': () => saveWritten('filled', 'station.sheet', 'application/octet-stream'),
    'save-office': () => saveWritten('office', 'table.txt', 'text/plain'),
    'save-names'() {
        const which = openTable();
        const rows = bench.state[which].rows.filter(row => !isBlank(row, FIELDS[which]));
        save(`${which}.csv`, withNames(rows, FIELDS[which]), 'text/csv');
    },
    'save-svg'() {
        const { model } = shown.tasks;
        save('plan.svg', pictureOf(model, `Fits at step ${grouped(model.told.step)}`, stationSaid(model.station)), 'image/svg+xml');
    },
};
