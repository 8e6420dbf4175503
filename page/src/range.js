// A task's range from its shortest to its longest period, with the granted period in it, and where it stood before the last change.
import { el } from './dom.js';

// Where a period stands between the two, in per cent.
export function placeIn(task, period) {
    const part = task.tmax === task.tmin ? 0 : (period - task.tmin) / (task.tmax - task.tmin);
    return 100 * Math.min(1, Math.max(0, part));
}

const isRigid = task => task.e === 0 || task.tmax === task.tmin;
const hasRange = read => read.on && !read.blank && read.task.tmin !== null && read.task.tmax !== null && read.task.tmax >= read.task.tmin;

function rangeSaid({ task, period }, before) {
    const ends = `between ${task.tmin} and ${task.tmax}`;
    const was = before && before.period !== period ? `, was ${before.period}` : '';
    return period === undefined ? `${ends}, nothing granted${was}` : `granted ${period}, ${ends}${was}`;
}

const at = (name, task, period) => el('span', { class: name, style: { left: `${placeIn(task, period)}%` } });

export function rangeOf(read, before) {
    if (!hasRange(read)) return [];
    const { task, period } = read;
    const granted = period !== undefined;
    const words = rangeSaid(read, before);
    const kinds = ['range', isRigid(task) && 'rigid', !granted && 'none', granted && !isRigid(task) && period === task.tmax && 'at-end'];
    const inside = isRigid(task) ? [el('span', { class: 'rigid-word' }, 'fixed')] : [
        granted && el('span', { class: 'fill', style: { width: `${placeIn(task, period)}%` } }),
        before && before.period !== period && at('ghost', task, before.period),
        granted && at('mark', task, period),
    ];
    return [el('div', { class: kinds.filter(Boolean).join(' '), role: 'img', 'aria-label': words, title: words }, inside)];
}
