// Texts as people paste them, and numbers as people read them: node page/tests/texts.mjs PAGE
import assert from 'node:assert/strict';
import { answers, lib, task } from './load.mjs';

const { parseTable, withNames, grouped, percent, tidy } = answers;

const FIELDS = ['c', 'tmin', 'tmax', 'e'];
const ROWS = [
    { on: true, name: 'Beam', c: '6', tmin: '10', tmax: '20', e: '1000' },
    { on: true, name: 'Camera 2', c: '7', tmin: '10', tmax: '30', e: '0' },
];
const BARE = ROWS.map(row => ({ ...row, name: '' }));

const NAMED = [
    'name;C;Tmin;Tmax;E\nBeam;6;10;20;1000\nCamera 2;7;10;30;0\n',
    'Beam\t6\t10\t20\t1000\r\nCamera 2\t7\t10\t30\t0',
    'Task,Cost,Shortest,Longest,Elasticity\n"Beam",6,10,20,1000\nCamera 2,7,10,30,0',
    'E;Tmax;Tmin;C;name\n1 000;20;10;6;Beam\n0;30;10;007;Camera 2',
    '\ufeffBeam,6,10,20,1000\n\n# a remark\nCamera 2,7,10,30,0,\n',
    'name, C (ticks), Tmin, Tmax, E\r\nBeam, 6, 10, 20, 1000\r\nCamera 2, 7, 10, 30, 0\r\n',
    '6,10,20,1000,Beam\n7,10,30,0,Camera 2\n',
];
for (const text of NAMED) assert.deepEqual(parseTable(text, FIELDS).rows, ROWS, text);
for (const text of ['6,10,20,1000\n7,10,30,0\n', '6 10 20 1000\n7 10 30 0\n', 'what this is\n6,10,20,1000\n7,10,30,0']) {
    assert.deepEqual(parseTable(text, FIELDS).rows, BARE, text);
}
assert.deepEqual(parseTable('6,10,20,1000\nhello\n\n7,10,30,0\nthere', FIELDS).left, [2, 5]);
assert.deepEqual(parseTable('', FIELDS), { rows: [], left: [] });
assert.equal(parseTable('on,name,C,Tmin,Tmax,E\n0,Beam,6,10,20,1000\n', FIELDS).rows[0].on, false);

// With its names a table comes back as it was.
const odd = [{ ...ROWS[0], name: 'Beam, left; "far"' }, { ...ROWS[1], on: false }];
assert.deepEqual(parseTable(withNames(ROWS, FIELDS), FIELDS).rows, ROWS);
assert.deepEqual(parseTable(withNames(odd, FIELDS), FIELDS).rows, [{ ...odd[0], name: "Beam, left; 'far'" }, odd[1]]);

// The office's text is the library's.
const exported = lib.exportText([task(6, 10, 20, 1000)]);
assert.equal(Buffer.from(exported.bytes).toString(), '6,10,20,1000\n');
assert.deepEqual(lib.importText(exported.bytes).rows, [task(6, 10, 20, 1000)]);

assert.deepEqual([percent(-2), percent(435000), percent(0)], ['-0.0002%', '43.5%', '0.0%']);
assert.deepEqual([grouped(1234567), grouped(1234)], ['1\u202f234\u202f567', '1234']);
assert.deepEqual([tidy(' 12 000 '), tidy('007'), tidy('0')], ['12000', '7', '0']);
console.log(`${NAMED.length + 3} texts`);
