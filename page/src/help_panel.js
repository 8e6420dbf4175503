// What alone would help, as buttons that try it; `found` grows while the library is asked.
import { el, nameOf } from './dom.js';
import { grouped } from './text.js';

const MOST_SLOWER = 6;

const then = words => el('span', { class: 'then' }, words);

function button(help, sign, words, after, apply) {
    return el('button', { type: 'button', class: 'help', onclick: () => apply(help) },
        sign && el('span', { class: 'help-sign', 'aria-hidden': 'true' }, sign), el('span', { class: 'help-words', title: words }, words), then(after));
}

// The helps that are one line each.
function singles(found, noun, apply) {
    const words = {
        processors: help => ['+', help.more === 1 ? `One ${noun} more` : `${help.more} ${noun}s more`],
        order: () => ['⇅', 'Biggest tasks first'],
    };
    return found.filter(help => words[help.kind])
        .map(help => button(help, ...words[help.kind](help), `fits at step ${grouped(help.step)}`, apply));
}

function offs(found, name, apply) {
    const list = found.filter(help => help.kind === 'off').sort((a, b) => a.step - b.step || a.record - b.record);
    if (list.length === 0) return [];
    const buttons = list.map(help => button(help, null, name(help), `step ${grouped(help.step)}`, apply));
    return [el('h3', {}, 'One task off'), el('div', { class: 'many' }, buttons)];
}

function slowers(found, name, apply) {
    const list = found.filter(help => help.kind === 'slower').sort((a, b) => a.tmax / a.was - b.tmax / b.was).slice(0, MOST_SLOWER);
    if (list.length === 0) return [];
    const buttons = list.map(help => button(help, null, name(help), grouped(help.tmax), apply));
    return [el('h3', {}, 'One task slower', el('small', {}, 'its longest period raised to')), el('div', { class: 'many' }, buttons)];
}

export function showHelps(place, model, found, busy, apply) {
    const name = help => nameOf(model.used[help.record]);
    const noun = model.station.policy === undefined ? 'core' : 'processor';
    const parts = [...singles(found, noun, apply), ...offs(found, name, apply), ...slowers(found, name, apply)];
    const none = 'Nothing alone is enough. Switch two tasks off, lower costs, or let several run slower.';
    const quiet = busy ? 'Still asking …' : found.length === 0 ? none : '';
    place.replaceChildren(el('section', { class: 'helps', 'aria-busy': String(busy) },
        el('h2', {}, 'What alone would help'), parts, quiet && el('p', { class: 'quiet' }, quiet)));
}
