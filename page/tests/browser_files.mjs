// Files dropped on the page and saved from it: node page/tests/browser_files.mjs PAGE CHROMIUM
import assert from 'node:assert/strict';
import { existsSync, readFileSync, rmSync } from 'node:fs';
import { join } from 'node:path';
import { inBrowser, sheets } from './browser.mjs';

const SHEETS = ['case-b', 'case-d', 'case-k', 'case-k-edition-2', 'case-b-swap-cost-1-notch-5', 'case-l-32-tasks'];
const SVG = /^<svg [\s\S]*<\/svg>\n$/;

await inBrowser(async page => {
    // What a button saves; a file that is being written has another name.
    async function saved(button, name) {
        const path = join(page.saved, name);
        rmSync(path, { force: true });
        await page.sees('the button is there', `return document.getElementById("${button}").disabled`, false);
        await page.click(`#${button}`);
        for (let i = 0; i < 200 && !existsSync(path); i++) await new Promise(done => { setTimeout(done, 50); });
        return readFileSync(path);
    }
    const file = name => readFileSync(new URL(name, sheets));

    // A sheet dropped goes on the bench, and saved it is the repository's, byte for byte; so is a filled one, checked and put on the bench.
    for (const name of SHEETS) {
        await page.click('#tab-tasks');
        await page.click('#clear');
        await page.says('No tasks yet');
        await page.drop(new URL(`${name}.sheet`, sheets).pathname);
        await page.says(/^Fits at step/);
        assert.deepEqual(await saved('save-sheet', 'station.sheet'), file(`${name}.filled`), `${name}, saved`);
        await page.drop(new URL(`${name}.filled`, sheets).pathname);
        await page.says(`${name}.filled: every result is ours`, 'check');
        await page.run('document.querySelector("#check-table .facts button").click()');
        await page.says(/^Fits at step/);
        assert.deepEqual(await saved('save-sheet', 'station.sheet'), file(`${name}.filled`), `${name}.filled, saved`);
    }

    // Texts and pictures.
    await page.drop(new URL('case-d.sheet', sheets).pathname);
    await page.says('Fits at step 146');
    assert.equal((await saved('save-office', 'table.txt')).toString(), '6,10,11,1000\n6,10,30,1000\n');
    await page.type(page.cell(0, 'name'), 'Beam <1>');
    await page.sees('the name', 'return document.querySelector("#tasks-table [data-field=name]").value', 'Beam <1>');
    assert.equal((await saved('save-names', 'tasks.csv')).toString(), 'on,name,C,Tmin,Tmax,E\n1,Beam <1>,6,10,11,1000\n1,,6,10,30,1000\n');
    await page.sees('the name is known', 'return document.querySelector("#tasks-loads .name")?.textContent', /Beam <1>|task 1/);
    const picture = (await saved('save-svg', 'plan.svg')).toString();
    assert.match(picture, SVG);
    assert.match(picture, /Beam &lt;1&gt;/);
    assert.match(picture, /Fits at step 146/);

    // The table with names dropped again is the same table.
    await page.click('#clear');
    await page.says('No tasks yet');
    await page.drop(join(page.saved, 'tasks.csv'));
    await page.says('Fits at step 146');
    await page.sees('its name', 'return document.querySelector("#tasks-table [data-field=name]").value', 'Beam <1>');

    // What is on the bench is still there when the page is opened again.
    await page.open();
    await page.says('Fits at step 146');
});
console.log(`${SHEETS.length} sheets`);
