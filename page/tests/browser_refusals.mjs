// Each refusal shows its words at the cell that it is about: node page/tests/browser_refusals.mjs PAGE CHROMIUM
import { mkdtempSync, readFileSync, rmSync, writeFileSync } from 'node:fs';
import { tmpdir } from 'node:os';
import { join } from 'node:path';
import { inBrowser, sheets } from './browser.mjs';

// A row typed, the settings beside policy 1 on 2 processors, the cells that are marked, the words in the row, and in the line.
const RECORDS = [
    [[0, 10, 20, 1], {}, ['c'], /^The cost is 0/, /^refused 6 at 0: task 0 is not good: C is 0$/],
    [[11, 10, 20, 1], {}, ['c', 'tmin'], /^Cost 11 is more/, /: C \+ 2w is above Tmin$/],
    [[6, 20, 10, 1], {}, ['tmin', 'tmax'], /^The shortest period 20 is above/, /: Tmin is above Tmax$/],
    [[6, 10, 1000000001, 1], {}, ['tmax'], /^The longest period is above/, /: Tmax is above 1,000,000,000$/],
    [[6, 10, 20, 1000001], {}, ['e'], /^The elasticity is above/, /: E is above 1,000,000$/],
    [[6, 11, 20, 1], { q: 5 }, ['tmin'], /^The shortest period 11 is no whole number of notches/, /: Tmin is not a multiple of q$/],
    [[6, 10, 21, 1], { q: 5 }, ['tmax'], /^The longest period 21 is no whole number of notches/, /: Tmax is not a multiple of q$/],
    [['lots', 10, 20, 1], {}, ['c'], /^“lots” is no whole number/, /^$/],
];

const SETTINGS = [
    [{ policy: 1, m: 0 }, 'm', 'There are 1 to 16 processors.'],
    [{ policy: 1, m: 17 }, 'm', 'There are 1 to 16 processors.'],
    [{ policy: 5, m: 2 }, 'm', 'One-core RM runs on 1 processor.'],
    [{ policy: 1, m: 1, q: 0 }, 'q', 'The notch is at least 1 tick.'],
    [{ policy: 1, m: 1, w: 'a' }, 'w', 'A whole number from 0 to 65535.'],
];

// A file dropped, what the strip of the check says, and the line.
const SHEETS = [
    ['one-setting.sheet', /is refused$/, /^refused 9 at 0: the sheet must begin with a settings count of 2 to 5$/],
    ['bytes-after.sheet', /is refused$/, /^refused 11 at \d+: the sheet is over at byte \d+, and bytes follow$/],
    ['wrong-result-count.sheet', /is refused$/, /^refused 10 at \d+: the result count is neither 0 nor the task count$/],
    ['case-l-33-tasks.sheet', /is refused$/, /^refused 3 at \d+: a table has at most 32 tasks$/],
];

const marked = 'return [...document.querySelectorAll("#tasks-table [aria-invalid]")].map(cell => cell.dataset.field)';
const words = 'return document.querySelector("#tasks-table .why")?.textContent ?? ""';
const pointed = `const cell = document.querySelector("#tasks-table [aria-invalid]");
    return document.getElementById(cell.getAttribute("aria-describedby")) !== null`;
const wrongRows = 'return [...document.querySelectorAll("#check-table tr.wrong td:first-child")].map(cell => cell.textContent)';
const line = name => `return document.getElementById("${name}-line").textContent`;

async function records(page) {
    for (const [row, more, fields, why, told] of RECORDS) {
        await page.click('#clear');
        await page.station({ policy: 1, m: 2, ...more });
        for (const [j, field] of ['c', 'tmin', 'tmax', 'e'].entries()) await page.type(page.cell(0, field), String(row[j]));
        await page.sees('the cells', marked, fields);
        await page.sees('the words', words, why);
        await page.sees('the line', line('tasks'), told);
        await page.sees('the cell points to the words', pointed, true);
    }
}

async function settings(page) {
    await page.paste('6,10,20,1000\n');
    for (const [station, name, why] of SETTINGS) {
        await page.station(station);
        await page.sees('the words at the setting', `return document.getElementById("why-${name}").textContent`, why);
        await page.sees('the setting is marked', `return document.getElementById("set-${name}").getAttribute("aria-invalid")`, 'true');
    }
    await page.station({ policy: 1, m: 1 });
}

async function dropped(page, room) {
    for (const [name, says, told] of SHEETS) {
        await page.drop(new URL(name, sheets).pathname);
        await page.says(says, 'check');
        await page.sees(`${name}: the line`, line('check'), told);
    }
    const filled = readFileSync(new URL('case-k.filled', sheets));
    writeFileSync(join(room, 'short.sheet'), filled.subarray(0, 40));
    await page.drop(join(room, 'short.sheet'));
    await page.sees('a sheet that ends', line('check'), /^refused 8 at 40: the sheet ends at byte 40/);
    filled[filled.length - 6] ^= 1;
    writeFileSync(join(room, 'wrong.sheet'), filled);
    await page.drop(join(room, 'wrong.sheet'));
    await page.says('wrong.sheet: 1 result differs', 'check');
    await page.sees('the result that differs', wrongRows, ['6']);
    await page.drop(new URL('case-b.sheet', sheets).pathname);
    await page.says('case-b.sheet: no results in it', 'check');
}

await inBrowser(async page => {
    const room = mkdtempSync(join(tmpdir(), 'bench-sheets-'));
    try {
        await records(page);
        await settings(page);
        await page.paste('400,1000,1000,0\n'.repeat(33));
        await page.says('Too many tasks: 33');
        await dropped(page, room);
        // A sheet with the policy that is withdrawn, put on the bench.
        await page.drop(new URL('case-f.sheet', sheets).pathname);
        await page.sees('policy 3', line('check'), /^refused 15 at 0: policy 3 is withdrawn/);
        await page.run('document.querySelector("#check-table .facts button").click()');
        await page.sees('policy 3 on the bench', line('tasks'), /^refused 15 at 0/);
    } finally {
        rmSync(room, { recursive: true, force: true });
    }
});
console.log(`${RECORDS.length + SETTINGS.length + SHEETS.length + 5} refusals`);
