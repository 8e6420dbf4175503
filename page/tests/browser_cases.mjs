// Document 01's bench cases typed into the page: node page/tests/browser_cases.mjs PAGE CHROMIUM
import { inBrowser } from './browser.mjs';

const B = [6, 10, 20, 1000];
const J = [1, 1, 1000000000, 1];
const K = [[3000, 4000, 5000, 10000], ...[450, 320, 350, 300, 230, 650].map(c => [c, 1000, 1000, 0])];

// Name, tasks, settings, what the strip says, periods, processors.
const CASES = [
    ['A', [], { policy: 1, m: 1 }, 'No tasks yet', [], []],
    ['B', [B, B], { policy: 1, m: 1 }, 'Fits at step 100', ['12', '12'], ['any', 'any']],
    ['C', [[5, 10, 20, 0], [8, 10, 40, 3000]], { policy: 1, m: 1 }, 'Fits at step 100', ['10', '16'], ['any', 'any']],
    ['D', [[6, 10, 11, 1000], [6, 10, 30, 1000]], { policy: 1, m: 1 }, 'Fits at step 146', ['11', '14'], ['any', 'any']],
    ['E', [B, B, B], { policy: 2, m: 2 }, 'Fits at step 100', ['12', '12', '12'], ['any', 'any', 'any']],
    ['I', Array(3).fill([1, 3, 3, 0]), { policy: 1, m: 1 }, 'Does not fit: 0.0002% of a processor too much', ['–', '–', '–'], []],
    ['J', [J, J], { policy: 1, m: 1 }, 'Fits at step 500\u202f000', ['2', '2'], ['any', 'any']],
    ['K', K, { policy: 4, m: 3 }, 'Fits at step 5', ['4286', ...Array(6).fill('1000')], ['1', '2', '2', '3', '1', '2', '3']],
    ['L, a longer period', [[1, 1, 1000000001, 0]], { policy: 1, m: 1 }, 'Look at task 0', ['–'], []],
    ['L, the longest period', [[1, 1, 1000000000, 0]], { policy: 1, m: 1 }, 'Fits at step 0', ['1'], ['any']],
    ['L, 16 processors', [B], { policy: 1, m: 16 }, 'Fits at step 0', ['10'], ['any']],
    ['L, 17 processors', [B], { policy: 1, m: 17 }, 'Look at the settings', ['–'], []],
];

const cells = name => `return [...document.querySelectorAll("#tasks-table tbody tr:not(.blank) .col-${name}")]
    .map(cell => cell.querySelector(".digits, .badge, .any")?.textContent ?? "")`;

await inBrowser(async page => {
    for (const [name, rows, settings, says, periods, processors] of CASES) {
        await page.click('#clear');
        await page.station(settings);
        for (const [i, row] of rows.entries()) {
            for (const [j, field] of ['c', 'tmin', 'tmax', 'e'].entries()) await page.type(page.cell(i, field), String(row[j]));
        }
        await page.says(says);
        await page.sees(`${name}: periods`, cells('period'), periods);
        if (processors.length > 0) await page.sees(`${name}: processors`, cells('where'), processors);
    }
    const rigid = n => '1,1000,1000,0\n'.repeat(n);
    await page.station({ policy: 1, m: 1 });
    await page.paste(rigid(32));
    await page.says('Fits at step 0');
    await page.sees('32 rows', 'return document.querySelectorAll("#tasks-table tbody tr:not(.blank)").length', 32);
    await page.paste(rigid(33));
    await page.says('Too many tasks: 33');

    // Case B again with the keyboard alone: from the first name on by Tab.
    await page.click('#clear');
    for (const row of [['Beam', ...B], ['Camera', ...B]]) {
        for (const text of row) {
            await page.send('Input.insertText', { text: String(text) });
            await page.key('Tab');
        }
        // Behind E stand the button that removes the row, and the handle and the switch of the next.
        const focus = 'return document.activeElement.dataset.field ?? ""';
        for (let i = 0; i < 4 && await page.run(focus) !== 'name'; i++) await page.key('Tab');
    }
    await page.says('Fits at step 100');
});
console.log(`${CASES.length + 3} cases`);
