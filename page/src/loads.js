// The processors' loads by task: a bar for each processor under first fit, else one bar of all of them, with what is free.
import { colourOf, el, nameOf } from './dom.js';
import { WHOLE } from './library.js';
import { ONE_CORE_RM } from './plan.js';
import { percent } from './text.js';

const DENSE = 4; // from more processors than these on, bars are lower
const BIGGEST = 7;
const BAR_WIDTH = 300; // of a bar, about, in pixels: a name stands in its part whole or not at all
const LETTER_WIDTH = 6.2;

const lights = (read, light) => ({ onmouseenter: () => light(read.id, true), onmouseleave: () => light(read.id, false) });

function partOf(read, whole, i, light) {
    const part = read.load / whole;
    const hasRoom = part * BAR_WIDTH > nameOf(read).length * LETTER_WIDTH + 12;
    return el('span', {
        class: `seg${i % 2 ? ' odd' : ''}`, style: { width: `${part * 100}%` }, title: `${nameOf(read)}: ${percent(read.load)}`, ...lights(read, light),
    }, hasRoom && el('span', {}, nameOf(read)));
}

function processorBar(load, processor, used, light) {
    const mine = used.filter(read => read.processor === processor);
    const words = `processor ${processor}: ${percent(load)} used by ${mine.map(nameOf).join(', ') || 'nothing'}`;
    return el('div', { class: 'cpu', style: { '--p': colourOf(processor) } },
        el('span', { class: 'badge', 'aria-hidden': 'true' }, String(processor)),
        el('span', { class: 'figure', title: `${load} of ${WHOLE} parts` }, percent(load)),
        el('div', { class: 'load', role: 'img', 'aria-label': words }, mine.map((read, i) => partOf(read, WHOLE, i, light))));
}

function eachProcessor({ loads, used, station }, light) {
    return [
        el('h2', {}, 'Processors', el('small', {}, station.edition === 2 ? 'charged of each' : 'used of each')),
        el('div', { class: `cpus${station.m > DENSE ? ' dense' : ''}` }, loads.map((load, i) => processorBar(load, i + 1, used, light))),
    ];
}

function sumsOf({ room, station }) {
    const free = room.own ?? room.pooled;
    const lines = [['Used by the tasks', room.used, 'used']];
    if (room.kept > 0) lines.push([station.policy === ONE_CORE_RM ? 'Kept free by the bound' : 'Kept free by the rule', room.kept, 'kept']);
    lines.push(free >= 0 ? ['Free', free, 'free'] : ['Too much', -free, 'over']);
    return el('dl', { class: 'sums' }, lines.map(([word, value, kind]) => el('div', { class: kind },
        el('dt', {}, el('i'), word), el('dd', {}, percent(value)))));
}

function allTogether(model, light) {
    const { room, used, station, told } = model;
    const whole = Math.max(room.all, room.used + room.kept);
    const width = parts => `${parts / whole * 100}%`;
    const kept = room.kept > 0 && el('span', { class: 'kept', style: { width: width(room.kept) }, title: `kept free by the rule: ${percent(room.kept)}` });
    const over = whole > room.all && el('i', { class: 'too-much', style: { left: width(room.all) }, title: `too much: ${percent(whole - room.all)}` });
    const ends = Array.from({ length: station.m }, (_, i) => el('i', {
        class: `tick${i === station.m - 1 ? ' last' : ''}`, style: { left: width((i + 1) * WHOLE) },
    }));
    return [
        el('h2', {}, station.m === 1 ? 'The processor' : `${station.m} processors together`,
            el('small', {}, told.number === 7 ? 'every task at its longest' : 'used and free')),
        el('div', { class: whole > room.all ? 'over' : '' },
            el('div', { class: 'load tall', role: 'img', 'aria-label': `${percent(room.used)} used of ${percent(room.all)}` },
                used.map((read, i) => partOf(read, whole, i, light)), kept, over, ends)),
        sumsOf(model),
    ];
}

function biggestOf({ used, told }, light) {
    const most = [...used].sort((a, b) => b.load - a.load || a.record - b.record).slice(0, BIGGEST);
    const bar = read => el('span', { class: 'thin' }, el('i', { style: { width: `${read.load / most[0].load * 100}%` } }));
    return el('section', { class: 'biggest' },
        el('h2', {}, told.number === 7 ? 'Biggest at their longest' : 'Biggest tasks', el('small', {}, 'of a processor')),
        most.map(read => el('div', { class: 'big', style: { '--p': colourOf(read.processor) }, ...lights(read, light) },
            el('span', { class: 'name' }, nameOf(read)), bar(read), el('span', { class: 'figure' }, percent(read.load)))));
}

export function showLoads(place, model, light) {
    if (!model.room || model.used.length === 0) { place.replaceChildren(); return; }
    const bars = model.loads ? eachProcessor(model, light) : allTogether(model, light);
    place.replaceChildren(el('section', {}, bars), biggestOf(model, light));
}
