// The strip that says whether it fits, and the line that the programs write.
import { el, nameOf } from './dom.js';
import { counted, grouped, percent } from './text.js';
import { REASONS_SAID, SENTENCES, WIDE_REASONS_SAID } from './built.js';

function sentenceOf({ number, place, reason, wideReason }) {
    const why = REASONS_SAID[reason] ?? WIDE_REASONS_SAID[wideReason];
    return `${SENTENCES[number].replace(/\bP\b/g, place)}${why ? `: ${why}` : ''}`;
}

export const lineOf = told => (told.number === 0 ? `accepted, step ${told.step}` : `refused ${told.number} at ${told.place}: ${sentenceOf(told)}`);

const capital = words => `${words[0].toUpperCase()}${words.slice(1)}.`;
const SIGNS = { good: '✓', bad: '✕', soft: '…', calm: '·' };

export function showStrip(place, [kind, big, small], action) {
    place.className = `strip ${kind}`;
    place.replaceChildren(
        el('span', { class: 'sign', 'aria-hidden': 'true' }, SIGNS[kind]),
        el('div', { class: 'says' }, el('strong', {}, big), small && el('span', {}, small)),
        ...(action ? [action] : []));
}

// What is typed is not finished: the first thing to look at.
function unfinished({ used, settings }) {
    const read = used.find(each => each.problems.length > 0);
    if (!read) return ['soft', 'Look at the settings', Object.values(settings)[0]];
    const hard = used.find(each => each.problems.some(problem => !problem.missing));
    if (hard) return ['bad', `Look at ${nameOf(hard)}`, hard.problems.find(problem => !problem.missing).words];
    return ['soft', `Finish ${nameOf(read)}`, read.problems.map(problem => problem.words).join(' ')];
}

function fitting({ told, used }) {
    const stretched = used.filter(read => read.period > read.task.tmin);
    const atEnd = stretched.filter(read => read.period === read.task.tmax).length;
    const end = atEnd > 0 ? `, ${atEnd} of them as far as ${atEnd === 1 ? 'it' : 'they'} may` : '';
    const many = `${stretched.length} of ${counted(used.length, 'task', 'tasks')} stretched${end}.`;
    return ['good', `Fits at step ${grouped(told.step)}`, stretched.length > 0 ? many : 'Every task has its shortest period.'];
}

const LONGEST = 'And that is with every task at its longest period.';

// By how much it does not fit; jobs that need several cores have no margin.
function tooMuch({ room, used, stuck }) {
    if (!room) return ['bad', 'Does not fit', 'Even with every task at its longest period there are too few cores.'];
    if (stuck !== undefined) {
        const free = `${percent(room.pooled)} of a processor is free in all, but in pieces too small for it.`;
        return ['bad', `Does not fit: no place for ${nameOf(used[stuck])}`, free];
    }
    const over = -(room.own ?? room.pooled);
    const kept = room.pooled >= 0 ? ' Part of the processors stays free by the policy’s rule.' : '';
    return ['bad', `Does not fit: ${percent(over)} of a processor too much`, `${LONGEST}${kept}`];
}

// What the strip says of a model: its kind, in large words, in small words.
export function verdictOf(model) {
    const { kind, told, used, settings } = model;
    if (kind === 'empty') return ['calm', 'No tasks yet', 'Type them in, paste a table, or drop a file anywhere on this page.'];
    if (kind === 'cells') return unfinished(model);
    if (kind === 'fits') return fitting(model);
    if (told.number === 7) return tooMuch(model);
    if (told.number === 6) return ['bad', `Look at ${nameOf(used[told.place])}`, used[told.place].problems[0].words];
    if (told.number === 2) return ['bad', 'Look at the settings', Object.values(settings).join(' ')];
    if (told.number === 3) return ['bad', `Too many tasks: ${told.place}`, `${capital(sentenceOf(told))} Switch some off or remove them.`];
    return ['bad', 'Refused', capital(sentenceOf(told))];
}

// The same of a sheet that was checked.
export function checkedOf(name, { verdict, read, ours }) {
    if (verdict.number === 0) return ['good', `${name}: every result is ours`, counted(read.rows.length, 'task', 'tasks')];
    if (verdict.number === 18) return ['soft', `${name}: no results in it`, capital(sentenceOf(verdict))];
    if (verdict.number !== 19) return ['bad', `${name} is refused`, capital(sentenceOf(verdict))];
    const wrong = read.results.filter((result, i) => result.period !== ours.periods[i] || result.processor !== ours.processors[i]);
    return ['bad', `${name}: ${counted(wrong.length, 'result differs', 'results differ')}`, `The first is that of task ${verdict.place}.`];
}
