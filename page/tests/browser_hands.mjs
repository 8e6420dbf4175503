// The page used by mouse and keyboard: switches, helps, rows moved, undo: node page/tests/browser_hands.mjs PAGE CHROMIUM
import assert from 'node:assert/strict';
import { inBrowser, withAlt } from './browser.mjs';

const names = 'return [...document.querySelectorAll("#tasks-table tbody tr:not(.blank) [data-field=name]")].map(cell => cell.value).join()';
const firstHelp = 'return document.querySelector("#tasks-helps .help")?.textContent ?? ""';
const helpWords = 'return [...document.querySelectorAll("#tasks-helps .help-words")].map(word => word.textContent)';
const records = 'return [...document.querySelectorAll("#tasks-table tbody tr:not(.blank) .record")].map(cell => cell.textContent).join()';

const middleOf = (page, selector) => page.run(`const box = document.querySelector(${JSON.stringify(selector)}).getBoundingClientRect();
    return { x: box.x + box.width / 2, y: box.y + box.height / 2 }`);

async function dragRow(page, from, to) {
    const handle = row => `#tasks-table tbody tr:nth-child(${row + 1}) .handle`;
    const [start, end] = [await middleOf(page, handle(from)), await middleOf(page, handle(to))];
    const mouse = (type, place, more = {}) => page.send('Input.dispatchMouseEvent', { type, ...place, button: 'left', buttons: 1, clickCount: 1, ...more });
    await mouse('mouseMoved', start, { buttons: 0 });
    await mouse('mousePressed', start);
    for (let i = 1; i <= 5; i++) await mouse('mouseMoved', { x: start.x, y: start.y + (end.y - start.y) * i / 5 });
    await mouse('mouseMoved', { x: end.x, y: end.y + (to > from ? 8 : -8) });
    await mouse('mouseReleased', { x: end.x, y: end.y + (to > from ? 8 : -8) }, { buttons: 0 });
}

async function switched(page) {
    await page.says('Fits at step 32');
    await page.run('document.querySelector("#tasks-table tbody tr:nth-child(21) .switch").focus()');
    await page.key(' ');
    await page.says('Does not fit: 5.5% of a processor too much');
    await page.sees('where tasks stood before stays to be seen', 'return document.querySelectorAll("#tasks-table .ghost").length > 10', true);
    await page.sees('the first help', firstHelp, /^\+One processor more/);
    await page.sees('all helps are there', 'return document.querySelector("#tasks-helps .helps").getAttribute("aria-busy")', 'false');
    await page.run('document.querySelector("#tasks-helps .help").click()');
    await page.says('Fits at step 12');
    await page.click('#undo');
    await page.says(/^Does not fit/);
    await page.sees('helps for one task off', 'return document.querySelectorAll("#tasks-helps .many")[0]?.querySelectorAll(".help").length', 9);
    await page.run('[...document.querySelectorAll("#tasks-helps .help")].find(help => /Second head/.test(help.textContent)).click()');
    await page.says('Fits at step 32');
    await page.sees('no help where it fits', 'return document.querySelectorAll("#tasks-helps .help").length', 0);
}

// First fit hangs on the order: 39, 39, 59, 59 does not fit two processors, and 39, 59, 39, 59 does.
async function moved(page) {
    await page.click('#clear');
    await page.station({ policy: 4, m: 2 });
    await page.paste('a;390;1000;1000;0\nb;390;1000;1000;0\nc;590;1000;1000;0\nd;590;1000;1000;0\n');
    await page.says('Does not fit: no place for d');
    await dragRow(page, 2, 1);
    await page.sees('c dragged before b', names, 'a,c,b,d');
    await page.says('Fits at step 0');
    await page.sees('record numbers', records, '0,1,2,3');
    await page.click('#tasks-table tbody tr:nth-child(2) .remove');
    await page.sees('c removed', names, 'a,b,d');
    await page.sees('the next row has the focus', 'return document.activeElement.value', 'b');
    await page.click('#undo');
    await page.sees('and there again', names, 'a,c,b,d');
    await page.click('#undo');
    await page.sees('taken back', names, 'a,b,c,d');
    await page.run('document.querySelector("#tasks-table tbody tr:nth-child(3) .handle").focus()');
    await page.key('ArrowUp');
    await page.sees('c up by an arrow key', names, 'a,c,b,d');
    await page.sees('its handle keeps the focus', 'return document.activeElement.className + document.activeElement.closest("tr").rowIndex', 'handle2');
    await page.run(`document.querySelector(${JSON.stringify(page.cell(0, 'tmin'))}).focus()`);
    await page.key('ArrowDown', withAlt);
    await page.sees('a down by Alt and an arrow key', names, 'c,a,b,d');
    await page.sees('its cell keeps the focus', 'return document.activeElement.dataset.field', 'tmin');
    await page.sees('it is told', 'return document.getElementById("moved").textContent', 'a is now in row 2.');
    await dragRow(page, 0, 3);
    await page.sees('c dragged to the end', names, 'a,b,d,c');
    await page.says('Does not fit: no place for c');
    await page.sees('the biggest first would help', `${helpWords}.includes("Biggest tasks first")`, true);
}

async function walked(page) {
    await page.run(`document.querySelector(${JSON.stringify(page.cell(0, 'c'))}).focus()`);
    await page.key('Enter');
    await page.sees('Enter goes down a column', 'return [document.activeElement.dataset.field, document.activeElement.closest("tr").rowIndex]', ['c', 2]);
    await page.key('ArrowUp');
    await page.sees('and up', 'return document.activeElement.closest("tr").rowIndex', 1);
    await page.run('document.querySelector("#tab-tasks").focus()');
    await page.send('Input.dispatchKeyEvent', { type: 'keyDown', key: 'ArrowRight', code: 'ArrowRight', windowsVirtualKeyCode: 39 });
    await page.says(/^Fits at step/, 'wide');
    await page.sees('the tab', 'return document.querySelector("[role=tab][aria-selected=true]").textContent', 'Several cores');
    await page.type('#set-wide-m', '5');
    await page.says('Does not fit', 'wide');
    await page.sees('helps', 'return document.querySelectorAll("#wide-helps .help").length > 2', true);
    await page.run('document.querySelector("#wide-helps .help").click()');
    await page.says(/^Fits at step/, 'wide');
    await page.sees('every control has a label', `return [...document.querySelectorAll("input:not([hidden]), button, textarea")]
        .filter(node => !(node.getAttribute("aria-label") || node.textContent.trim() || node.labels?.length)).map(node => node.outerHTML)`, []);
}

// A table at its worst: a million steps of first fit in edition 2 for 32 tasks. Meanwhile the page is awake, as the library is asked in a worker.
async function awake(page) {
    await page.click('#tab-tasks');
    await page.station({ policy: 4, m: 15, edition: 2 });
    await page.run(`globalThis.times = [performance.now()];
        globalThis.ticking = setInterval(() => { times.push(performance.now()); }, 10);`);
    await page.paste('500001,1000000,1000000000,1\n'.repeat(32));
    await page.says(/^Fits at step 166/);
    const [longest, whole] = await page.run(`clearInterval(ticking);
        return [Math.max(...times.slice(1).map((time, i) => time - times[i])), times.at(-1) - times[0]]`);
    assert.ok(longest < whole / 2, `the page slept for ${longest} ms of ${whole}`);
}

const workers = 'return globalThis.made ?? 0';
const COUNTED = 'const Made = Worker; globalThis.Worker = class extends Made { constructor(url) { super(url); globalThis.made = (globalThis.made ?? 0) + 1; } };';
const NONE = 'globalThis.Worker = class { constructor() { throw new Error("there are no workers"); } };';

// The library is asked in workers; where there are none, the page's own thread gives the same answers.
async function threads(page) {
    for (const [source, made] of [[COUNTED, 1], [NONE, 0]]) {
        const { identifier } = await page.send('Page.addScriptToEvaluateOnNewDocument', { source });
        await page.run('localStorage.clear()');
        await page.open();
        await page.says('Fits at step 32');
        await page.sees('the workers', workers, made);
        await page.click('#tasks-table tbody tr:nth-child(21) .switch');
        await page.says(/^Does not fit/);
        await page.sees('all helps', 'return document.querySelectorAll("#tasks-helps .help").length', 15);
        await page.send('Page.removeScriptToEvaluateOnNewDocument', { identifier });
    }
}

await inBrowser(async page => {
    await switched(page);
    await moved(page);
    await walked(page);
    await awake(page);
    await threads(page);
});
