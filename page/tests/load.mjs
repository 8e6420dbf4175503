// What of the page needs no browser, run under node as it stands in the file: the script that answers, with the library in it, and the pasted tables.
import { readFileSync } from 'node:fs';

const NAMES = [
    'openOwnLibrary', 'judge', 'judgeWide', 'helps', 'helpsWide', 'filledSheet', 'comparedSheet',
    'SENTENCES', 'REASONS_SAID', 'WIDE_REASONS_SAID', 'parseTable', 'withNames', 'grouped', 'percent', 'tidy',
];

export const page = readFileSync(process.argv[2], 'utf8');
const source = page.match(/<script id="answers">\n([\s\S]*?)<\/script>/)[1] + page.match(/\/\/ ---- pasted.js ----\n([\s\S]*?)\/\/ ---- /)[1];
export const answers = new Function(`${source}\nreturn { ${NAMES.join(', ')} };`)();
export const lib = await answers.openOwnLibrary();

export const station = (policy, m, more = {}) => ({ policy, m, w: 0, q: 1, edition: 1, ...more });
export const task = (c, tmin, tmax, e) => ({ c, tmin, tmax, e });

// A table as it stands on the page: every number as typed text.
const texts = row => Object.fromEntries(Object.entries(row).map(([field, value]) => [field, String(value)]));
export function typed(rows, settings) {
    const { policy, ...numbers } = settings;
    return { policy, ...texts(numbers), rows: rows.map((row, i) => ({ id: i + 1, on: true, name: '', ...texts(row) })) };
}
