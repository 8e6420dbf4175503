// Chromium over a pipe, as a person's hands and eyes: what the tests in a browser share.
import assert from 'node:assert/strict';
import { spawn } from 'node:child_process';
import { mkdtempSync, rmSync } from 'node:fs';
import { tmpdir } from 'node:os';
import { join, resolve } from 'node:path';
import { pathToFileURL } from 'node:url';

const PATIENCE = 20000;
const KEYS = { Enter: 13, Tab: 9, ArrowDown: 40, ArrowUp: 38, ' ': 32, Escape: 27 };
const WORDS = ['--headless=new', '--no-sandbox', '--disable-gpu', '--disable-dev-shm-usage', '--no-first-run', '--remote-debugging-pipe'];
export const withAlt = 1;

export const sheets = new URL('../../sheets/', import.meta.url);
const [, , pagePath, program] = process.argv;
const sleep = time => new Promise(done => { setTimeout(done, time); });

// ---- the pipe ----

function connect(browser) {
    const waiting = new Map();
    const listeners = [];
    let rest = '';
    let last = 0;
    browser.stdio[4].on('data', data => {
        const parts = (rest + data).split('\0');
        rest = parts.pop();
        for (const told of parts.map(part => JSON.parse(part))) {
            if (told.id) waiting.get(told.id)?.(told);
            else listeners.forEach(listen => listen(told));
        }
    });
    const send = (method, params = {}, sessionId = undefined) => new Promise((done, fail) => {
        last += 1;
        waiting.set(last, told => (told.error ? fail(new Error(`${method}: ${told.error.message}`)) : done(told.result)));
        browser.stdio[3].write(`${JSON.stringify({ id: last, method, params, sessionId })}\0`);
    });
    return { send, listeners };
}

async function attach(send) {
    const { targetId } = await send('Target.createTarget', { url: 'about:blank' });
    const { sessionId } = await send('Target.attachToTarget', { targetId, flatten: true });
    return (method, params) => send(method, params, sessionId);
}

// ---- the page ----

function makePage(send, saved) {
    const errors = [];
    const requests = [];
    // Code runs in the page; what it returns comes back.
    async function run(code) {
        const told = await send('Runtime.evaluate', { expression: `(() => { ${code} })()`, awaitPromise: true, returnByValue: true });
        if (told.exceptionDetails) throw new Error(`${told.exceptionDetails.exception?.description}\nin ${code}`);
        return told.result.value;
    }
    // Waits until what the code returns is what is due.
    async function sees(name, code, due) {
        let value;
        for (let waited = 0; waited < PATIENCE; waited += 50) {
            value = await run(code);
            if (due instanceof RegExp ? due.test(value) : JSON.stringify(value) === JSON.stringify(due)) return;
            await sleep(50);
        }
        assert.fail(`${name}: ${JSON.stringify(value)}, where ${due instanceof RegExp ? due : JSON.stringify(due)} is due`);
    }
    async function key(name, modifiers = 0) {
        const one = { key: name, code: name, windowsVirtualKeyCode: KEYS[name], modifiers };
        const text = { Enter: '\r', ' ': ' ' }[name];
        await send('Input.dispatchKeyEvent', { ...one, type: 'keyDown', ...(text ? { text } : {}) });
        await send('Input.dispatchKeyEvent', { ...one, type: 'keyUp' });
    }
    return { send, run, sees, key, errors, requests, saved, ...hands({ send, run, sees }) };
}

function hands({ send, run, sees }) {
    const click = selector => run(`document.querySelector(${JSON.stringify(selector)}).click();`);
    async function type(selector, text) {
        await run(`const input = document.querySelector(${JSON.stringify(selector)}); input.focus(); input.select();`);
        if (text === '') await send('Input.dispatchKeyEvent', { type: 'keyDown', key: 'Delete', code: 'Delete', windowsVirtualKeyCode: 46 });
        else await send('Input.insertText', { text });
    }
    const cell = (row, field, table = 'tasks') => `#${table}-table tbody tr:nth-child(${row + 1}) [data-field=${field}]`;
    async function open() {
        await send('Page.navigate', { url: 'about:blank' });
        await send('Page.navigate', { url: pathToFileURL(resolve(pagePath)).href });
        await sees('the page is open', 'return !!document.querySelector("#tasks-strip strong")', true);
    }
    return {
        click, type, cell, open,
        // What the strip says of the table as it stands now.
        says: (due, table = 'tasks') => sees(`the strip of ${table}`, `const strip = document.getElementById("${table}-strip");
            return strip.getAttribute("aria-busy") === "true" ? "" : strip.querySelector("strong")?.textContent ?? ""`, due),
        async paste(text) {
            await click('#paste');
            await type('#paste-text', text);
            await click('#paste-dialog [value=take]');
        },
        async station({ policy, m, w = 0, q = 1, edition = 1 }) {
            await click(`input[name=policy][value="${policy}"]`);
            await click(`input[name=edition][value="${edition}"]`);
            for (const [name, value] of Object.entries({ m, w, q })) await type(`#set-${name}`, String(value));
        },
        async drop(path) {
            const data = { items: [], files: [resolve(path)], dragOperationsMask: 1 };
            for (const kind of ['dragEnter', 'dragOver', 'drop']) await send('Input.dispatchDragEvent', { type: kind, x: 300, y: 300, data });
        },
        size: (width, height, mobile = false) => send('Emulation.setDeviceMetricsOverride', { width, height, deviceScaleFactor: 1, mobile }),
    };
}

// Runs what a test does with the page, open on an empty profile; the page may then have had no error, and asked for nothing but its file.
export async function inBrowser(act) {
    const room = mkdtempSync(join(tmpdir(), 'bench-page-'));
    const browser = spawn(program, [...WORDS, `--user-data-dir=${room}/profile`], { stdio: ['ignore', 'ignore', 'ignore', 'pipe', 'pipe'] });
    const { send, listeners } = connect(browser);
    try {
        const ask = await attach(send);
        const page = makePage(ask, join(room, 'saved'));
        listeners.push(({ method, params }) => {
            if (method === 'Runtime.exceptionThrown') page.errors.push(params.exceptionDetails.exception?.description ?? params.exceptionDetails.text);
            if (method === 'Log.entryAdded' && params.entry.level === 'error') page.errors.push(params.entry.text);
            if (method === 'Network.requestWillBeSent') page.requests.push(params.request.url);
        });
        for (const part of ['Runtime', 'Network', 'Page', 'Log']) await ask(`${part}.enable`);
        await send('Browser.setDownloadBehavior', { behavior: 'allow', downloadPath: page.saved });
        await page.size(1366, 768);
        await page.open();
        await act(page);
        assert.deepEqual(page.errors, [], 'errors on the page');
        assert.deepEqual(page.requests.filter(url => !/^(file|about|data|blob):/.test(url)), [], 'requests to a network');
    } finally {
        browser.kill();
        await sleep(300);
        rmSync(room, { recursive: true, force: true, maxRetries: 5, retryDelay: 200 });
    }
}
