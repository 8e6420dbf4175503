// A filled sheet from another maker: its results beside ours, task by task.
import { el } from './dom.js';
import { counted, grouped } from './text.js';

const POLICIES = { 1: 'Pooled', 2: 'Global EDF', 3: 'Global RM (withdrawn)', 4: 'First fit', 5: 'One-core RM' };

export function stationSaid({ policy, m, w, q, edition }) {
    return `${POLICIES[policy] ?? `Policy ${policy}`}, ${counted(m, 'processor', 'processors')}, swap cost ${w}, notch ${q}, edition ${edition}`;
}

const number = (value, ...kinds) => el('td', { class: ['num', ...kinds].filter(Boolean).join(' ') }, value === undefined ? '–' : grouped(value));
const processor = (value, kind) => el('td', { class: `num ${kind || ''}` }, value === undefined ? '–' : value === 0 ? 'any' : String(value));

function resultRow(row, i, theirs, ours) {
    const known = theirs.period !== undefined && ours.period !== undefined;
    const differs = field => known && theirs[field] !== ours[field] && 'differs';
    const same = known && !differs('period') && !differs('processor');
    return el('tr', { class: known && !same ? 'wrong' : '' },
        number(i, 'dim'), [row.c, row.tmin, row.tmax, row.e].map(value => number(value)),
        number(theirs.period, 'group', differs('period')), processor(theirs.processor, differs('processor')),
        number(ours.period, 'strong', 'group'), processor(ours.processor, 'strong'),
        el('td', { class: same ? 'same' : 'not', 'aria-label': same ? 'the same' : 'differs' }, known ? (same ? '✓' : '✕') : ''));
}

const HEADS = ['No.', 'Cost', 'Shortest', 'Longest', 'Elasticity', 'Period', 'Proc.', 'Period', 'Proc.'];

function headRows() {
    const over = [
        el('th', { colspan: 5 }, 'The sheet’s tasks'),
        el('th', { colspan: 2, class: 'group' }, 'Theirs'), el('th', { colspan: 2, class: 'group' }, 'Ours'),
    ];
    const heads = HEADS.map((word, i) => el('th', { scope: 'col', class: i === 5 || i === 7 ? 'num group' : 'num' }, word));
    return el('thead', {}, el('tr', {}, over, el('td')), el('tr', {}, heads, el('th', { scope: 'col' }, el('span', { class: 'hidden' }, 'Same'))));
}

// onTake puts the sheet on the bench.
export function showCompared(place, { read, ours }, onTake) {
    if (read.number !== 0) { place.replaceChildren(); return; }
    const granted = i => (ours.number === 0 ? { period: ours.periods[i], processor: ours.processors[i] } : {});
    place.replaceChildren(
        el('p', { class: 'facts' }, stationSaid(read.station), el('button', { type: 'button', onclick: onTake }, 'Put it on the bench')),
        el('table', { class: 'compare' }, headRows(), el('tbody', {}, read.rows.map((row, i) => resultRow(row, i, read.results[i] ?? {}, granted(i))))));
}
