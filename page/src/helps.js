// What alone would make a table fit that no step passes. Each help is an answer of the library; null stands for an answer that was no.
import { LONGEST_PERIOD, MOST_PROCESSORS } from './library.js';
import { FIRST_FIT, ONE_CORE_RM } from './plan.js';

// How far a longest period is raised at most.
const SLOWEST = 20;

const accepted = (told, help) => (told.number === 0 ? { ...help, step: told.step } : null);
const without = (list, i) => list.filter((_, j) => j !== i);
const replaced = (list, i, value) => list.map((each, j) => (j === i ? value : each));

// One processor more and each task off, in one call. A step is told as a number: 0 for none, else the step + 1.
function* relieved(lib, { tasks, station, used }) {
    const told = lib.relief(tasks, station);
    if (told.more > 0) yield { kind: 'processors', m: station.m + 1, more: 1, step: told.more - 1 };
    for (const read of used) {
        const number = told.without[read.record];
        if (number > 0) yield { kind: 'off', id: read.id, record: read.record, step: number - 1 };
    }
    return told.more > 0;
}

// The fewest processors from a count on with which it fits.
function* processorsFrom(from, station, ask) {
    for (let m = from; m <= MOST_PROCESSORS; m++) {
        const told = ask(m);
        yield accepted(told, { kind: 'processors', m, more: m - station.m });
        if (told.number === 0) return;
    }
}

// First fit takes the tasks in their order: the biggest loads first.
function* otherOrder(lib, { tasks, station, used }) {
    const order = used.map(read => read.record).sort((a, b) => used[b].load - used[a].load || a - b);
    yield accepted(lib.plain(order.map(i => tasks[i]), station), { kind: 'order', ids: order.map(i => used[i].id) });
}

// A longest period with which it fits, by halving; where first fit fails in between it need not be the least.
function* slower(read, notch, limit, ask) {
    const help = { kind: 'slower', id: read.id, record: read.record, was: read.task.tmax };
    let fails = Math.floor(read.task.tmax / notch);
    let fits = Math.floor(limit / notch);
    let best = ask(fits * notch);
    if (best.number !== 0) return;
    while (fits - fails > 1) {
        const middle = Math.floor((fails + fits) / 2);
        const told = ask(middle * notch);
        if (told.number === 0) [fits, best] = [middle, told];
        else fails = middle;
        yield null;
    }
    yield accepted(best, { ...help, tmax: fits * notch });
}

export function* helps(lib, model) {
    const { station, tasks, used } = model;
    const oneMore = yield* relieved(lib, model);
    if (!oneMore && station.policy !== ONE_CORE_RM) yield* processorsFrom(station.m + 2, station, m => lib.plain(tasks, { ...station, m }));
    if (station.policy === FIRST_FIT) yield* otherOrder(lib, model);
    for (const read of used.filter(each => each.task.e > 0)) {
        const limit = Math.min(LONGEST_PERIOD, SLOWEST * read.task.tmax);
        yield* slower(read, station.q, limit, tmax => lib.plain(replaced(tasks, read.record, { ...read.task, tmax }), station));
    }
}

export function* helpsWide(lib, model) {
    const { station, tasks, used } = model;
    yield* processorsFrom(station.m + 1, station, m => lib.wide(tasks, m));
    for (const read of used) yield accepted(lib.wide(without(tasks, read.record), station.m), { kind: 'off', id: read.id, record: read.record });
    for (const read of used.filter(each => each.task.e > 0)) {
        const limit = Math.min(LONGEST_PERIOD, read.task.c - 1);
        yield* slower(read, 1, limit, tmax => lib.wide(replaced(tasks, read.record, { ...read.task, tmax }), station.m));
    }
}
