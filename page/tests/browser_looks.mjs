// The page at three sizes: nothing to scroll sideways, no number cut, one printed page: node page/tests/browser_looks.mjs PAGE CHROMIUM PICTURES
// A picture of each is left in the folder PICTURES, to be looked at.
import assert from 'node:assert/strict';
import { mkdirSync, readFileSync, writeFileSync } from 'node:fs';
import { join } from 'node:path';
import { inBrowser, sheets } from './browser.mjs';

const folder = process.argv[4];
const SIZES = { laptop: [1366, 768], tablet: [820, 1180], screen: [1920, 1080] };
const long = i => `Axis group ${i + 1};${4000000 + 91000 * i};10000000;1000000000;${100 + 30 * i}`;
const spread = text => text.replaceAll(';', '\t');

// What is on the bench for each picture, by hands alone.
const STATES = {
    example: async page => {
        await page.says('Fits at step 32');
    },
    changed: async page => {
        await page.type(page.cell(19, 'c'), '1900');
        await page.says('Fits at step 38');
    },
    refused: async page => {
        await page.click('#tasks-table tbody tr:nth-child(21) .switch');
        await page.says(/^Does not fit/);
        await page.sees('the helps', 'return document.querySelector("#tasks-helps .helps")?.getAttribute("aria-busy")', 'false');
    },
    pooled: async page => {
        await page.click('input[name=policy][value="2"]');
        await page.says(/^(Fits|Does)/);
        await page.sees('its bar', 'return !!document.querySelector("#tasks-loads .tall")', true);
    },
    cells: async page => {
        await page.type(page.cell(6, 'tmin'), '90');
        await page.type(page.cell(11, 'tmax'), '40003');
        await page.says('Look at Laser power');
    },
    thirty_two: async page => {
        await page.type('#set-m', '16');
        await page.paste(spread(Array.from({ length: 32 }, (_, i) => long(i)).join('\n')));
        await page.says(/^Fits at step/);
    },
    several_cores: async page => {
        await page.click('#tab-wide');
        await page.says(/^Fits at step/, 'wide');
    },
    check: async page => {
        const bytes = readFileSync(new URL('case-k.filled', sheets));
        bytes[bytes.length - 12] ^= 9;
        bytes[bytes.length - 2] = 1;
        writeFileSync(join(folder, 'another-maker.sheet'), bytes);
        await page.drop(join(folder, 'another-maker.sheet'));
        await page.says('another-maker.sheet: 2 results differ', 'check');
    },
};

// What is cut: a number in a cell or in the column of periods, a word in a button or a head.
const cut = `return [...document.querySelectorAll(".cell.number, .col-period, th, .actions button, .segments span, .figure, .then")]
    .filter(node => node.offsetParent && node.scrollWidth > node.clientWidth + 1 && getComputedStyle(node).display !== "inline")
    .map(node => node.className + ": " + (node.value ?? node.textContent))`;

async function picture(page, name) {
    const { data } = await page.send('Page.captureScreenshot');
    writeFileSync(join(folder, `${name}.png`), Buffer.from(data, 'base64'));
}

async function fresh(page) {
    await page.run('localStorage.clear()');
    await page.open();
}

async function printed(page, name) {
    const { data } = await page.send('Page.printToPDF', { preferCSSPageSize: true, printBackground: true });
    const pages = (Buffer.from(data, 'base64').toString('latin1').match(/\/Type\s*\/Page\b/g) ?? []).length;
    assert.equal(pages, 1, `${name}: printed on ${pages} pages`);
    await page.size(718, 1040);
    await page.send('Emulation.setEmulatedMedia', { media: 'print' });
    await picture(page, `print-${name}`);
    await page.send('Emulation.setEmulatedMedia', { media: '' });
}

await inBrowser(async page => {
    mkdirSync(folder, { recursive: true });
    for (const [size, [width, height]] of Object.entries(SIZES)) {
        for (const [name, make] of Object.entries(STATES)) {
            await page.size(width, height);
            await fresh(page);
            await make(page);
            await page.run('document.activeElement.blur()');
            await picture(page, `${size}-${name}`);
            await page.sees(`${size}, ${name}: sideways`, 'return document.documentElement.scrollWidth <= innerWidth', true);
            await page.sees(`${size}, ${name}: cut`, cut, []);
        }
    }
    for (const name of ['example', 'thirty_two', 'refused']) {
        await page.size(...SIZES.laptop);
        await fresh(page);
        await STATES[name](page);
        await printed(page, name);
    }
    // In the dark, and with fingers.
    await page.size(...SIZES.laptop);
    await page.send('Emulation.setEmulatedMedia', { features: [{ name: 'prefers-color-scheme', value: 'dark' }] });
    await fresh(page);
    await STATES.refused(page);
    await picture(page, 'dark-refused');
    await page.send('Emulation.setEmulatedMedia', { features: [] });
    await page.send('Emulation.setTouchEmulationEnabled', { enabled: true });
    await page.size(820, 1180, true);
    await fresh(page);
    await STATES.changed(page);
    await picture(page, 'fingers-changed');
    await page.sees('rows for fingers', 'return document.querySelector("#tasks-table tbody tr").offsetHeight >= 36', true);
    await page.sees('fingers: sideways', 'return document.documentElement.scrollWidth <= 820', true);
});
console.log(`${Object.keys(SIZES).length * Object.keys(STATES).length} pictures`);
