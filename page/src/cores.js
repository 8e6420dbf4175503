// The cores that tasks take which need several, a block for each core.
import { colourOf, el, nameOf } from './dom.js';
import { counted } from './text.js';

const line = (kind, colour, name, cores) => el('li', { class: kind, style: { '--p': colour } },
    el('i'), el('span', { class: 'name' }, name), el('span', { class: 'figure' }, counted(cores, 'core', 'cores')));

function blockOf(read, i, light) {
    return Array.from({ length: read.cores }, () => el('span', {
        class: 'block', style: { '--p': colourOf(i + 1) }, title: nameOf(read),
        onmouseenter: () => light(read.id, true), onmouseleave: () => light(read.id, false),
    }));
}

export function showCores(place, model, light) {
    if (model.kind !== 'fits') { place.replaceChildren(); return; }
    const { used, station } = model;
    const blocks = used.flatMap((read, i) => blockOf(read, i, light));
    const free = station.m - blocks.length;
    const words = used.map(read => `${nameOf(read)} takes ${read.cores}`).join(', ');
    place.replaceChildren(el('section', {},
        el('h2', {}, 'Cores', el('small', {}, `${blocks.length} of ${station.m} taken`)),
        el('div', { class: 'blocks', role: 'img', 'aria-label': words }, blocks,
            Array.from({ length: free }, () => el('span', { class: 'block free', title: 'free' }))),
        el('ul', { class: 'legend' },
            used.map((read, i) => line('', colourOf(i + 1), nameOf(read), read.cores)),
            free > 0 && line('free', 'none', 'free', free))));
}
