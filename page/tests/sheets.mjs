// The repository's sheets, read, filled and written back byte for byte: node page/tests/sheets.mjs PAGE
import assert from 'node:assert/strict';
import { readFileSync, readdirSync } from 'node:fs';
import { answers, lib, typed } from './load.mjs';

const folder = new URL('../../sheets/', import.meta.url);
const file = name => readFileSync(new URL(name, folder));
const tally = { filled: 0, refused: 0, checked: 0 };

// One that reads is written back as it was; the page saves it, filled in, as the repository has it.
function holdRead(name, bytes, filled) {
    const read = lib.read(bytes);
    if (read.number !== 0) return;
    const again = lib.write(read.rows, read.station, read.settingsCount, read.results);
    assert.deepEqual(Buffer.from(again.bytes), bytes, `${name} written back`);
    const saved = answers.filledSheet(lib, { ...typed(read.rows, read.station), settingsCount: read.settingsCount });
    if (saved.number === 0) assert.deepEqual(Buffer.from(saved.bytes), filled, `${name} saved`);
}

// Our own results are accepted; with a bit of the last one changed, that one is named.
function holdChecked(name, filled) {
    const right = answers.comparedSheet(lib, filled);
    assert.equal(right.verdict.number, 0, `${name} checked`);
    if (right.read.results.length === 0) return;
    const wrong = Buffer.from(filled);
    wrong[wrong.length - 6] ^= 1;
    const { verdict, read } = answers.comparedSheet(lib, wrong);
    assert.deepEqual([verdict.number, verdict.place], [19, read.rows.length - 1], `${name} with a wrong result`);
    tally.checked += 1;
}

for (const name of readdirSync(folder).filter(each => each.endsWith('.sheet'))) {
    const bytes = file(name);
    const filled = file(name.replace(/sheet$/, 'filled'));
    const told = lib.fill(bytes);
    const line = Buffer.from(`refused ${told.number} at ${told.place}\n`);
    assert.deepEqual(told.number === 0 ? Buffer.from(told.bytes) : line, filled, `${name} filled`);
    holdRead(name, bytes, filled);
    if (told.number === 0) holdChecked(name, filled);
    tally[told.number === 0 ? 'filled' : 'refused'] += 1;
}
assert.ok(tally.filled > 30 && tally.refused > 20 && tally.checked > 30, JSON.stringify(tally));
console.log(JSON.stringify(tally));
