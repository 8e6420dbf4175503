// The plan as a picture of its own (SVG), for a report or a wall.
import { colourOf, nameOf } from './dom.js';
import { WHOLE } from './library.js';
import { placeIn } from './range.js';
import { grouped, percent } from './text.js';

const WIDTH = 900;
const TOP = 92;
const ROW = 24;
const LOAD = 26;
const RANGE = { left: 272, width: 336 };
const BAR = { left: 130, width: 660 };
const DIM = 'fill="#56616d"';

const ESCAPES = { '&': '&amp;', '<': '&lt;', '>': '&gt;', '"': '&quot;' };
const safe = words => String(words).replace(/[&<>"]/g, each => ESCAPES[each]);
const text = (x, y, words, more = '') => `<text x="${x}" y="${y}" ${more}>${safe(words)}</text>`;
const tenths = number => Math.max(0, number).toFixed(1);
const box = (x, y, width, height, fill, more = '') => (
    `<rect x="${tenths(x)}" y="${y}" width="${tenths(width)}" height="${height}" fill="${fill}" ${more}/>`);

function heads() {
    const small = `${DIM} font-size="11"`;
    return [
        text(24, TOP - 10, 'Task', small), text(260, TOP - 10, 'Shortest', `${small} text-anchor="end"`), text(620, TOP - 10, 'Longest', small),
        text(790, TOP - 10, 'Period', `${small} text-anchor="end"`), text(850, TOP - 10, 'On', `${small} text-anchor="middle"`),
    ];
}

function rangeIn({ task, period, processor }, y) {
    const out = [box(RANGE.left, y + 9, RANGE.width, 6, '#d5dbe1', 'rx="3"')];
    if (task.e === 0 || task.tmax === task.tmin) return out;
    const to = RANGE.width * placeIn(task, period) / 100;
    out.push(box(RANGE.left, y + 9, to, 6, colourOf(processor), 'rx="3"'), box(RANGE.left + to - 2, y + 4, 4, 16, colourOf(processor), 'rx="1"'));
    return out;
}

function taskRow(read, i) {
    const y = TOP + i * ROW;
    return [
        i % 2 === 0 ? box(16, y, WIDTH - 32, ROW, '#f4f6f8') : '',
        text(24, y + 16, nameOf(read)),
        text(260, y + 16, grouped(read.task.tmin), `text-anchor="end" ${DIM}`),
        text(620, y + 16, grouped(read.task.tmax), DIM),
        ...rangeIn(read, y),
        text(790, y + 17, grouped(read.period), 'text-anchor="end" font-weight="700" font-size="15"'),
        text(850, y + 16, read.processor || 'any', `text-anchor="middle" fill="${colourOf(read.processor)}" font-weight="700"`),
    ];
}

function loadRow(load, i, used, y) {
    const out = [
        text(24, y + 14, `Processor ${i + 1}`), box(BAR.left, y, BAR.width, 20, '#e3e7eb', 'rx="3"'),
        text(850, y + 14, percent(load), 'text-anchor="middle"'),
    ];
    let x = BAR.left;
    used.filter(read => read.processor === i + 1).forEach((read, j) => {
        const width = BAR.width * read.load / WHOLE;
        out.push(box(x, y, width - 1, 20, colourOf(i + 1), `opacity="${j % 2 ? 0.85 : 1}"`));
        if (width > 7 * nameOf(read).length + 12) out.push(text(x + 6, y + 14, nameOf(read), 'fill="#fff" font-size="11"'));
        x += width;
    });
    return out;
}

export function pictureOf(model, title, subtitle) {
    const loads = model.loads ?? [];
    const below = TOP + model.used.length * ROW;
    const height = below + (loads.length > 0 ? 44 + loads.length * LOAD : 0) + 30;
    const parts = [
        text(24, 38, title, 'font-size="22" font-weight="700"'), text(24, 60, subtitle, DIM), ...heads(),
        ...model.used.flatMap(taskRow), ...loads.flatMap((load, i) => loadRow(load, i, model.used, below + 36 + i * LOAD)),
    ];
    return `<svg xmlns="http://www.w3.org/2000/svg" width="${WIDTH}" height="${height}" viewBox="0 0 ${WIDTH} ${height}"`
        + ' font-family="Segoe UI, Roboto, Helvetica, Arial, sans-serif" font-size="13" fill="#16202b">\n'
        + `<rect width="100%" height="100%" fill="#fff"/>\n${parts.filter(Boolean).join('\n')}\n</svg>\n`;
}
