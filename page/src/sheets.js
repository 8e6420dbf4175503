// What is saved of a table as it stands on the bench, and a sheet from another maker with our results beside it.
import { isUnfinished, readTasks } from './plan.js';

// A setting past the settings count has its old meaning on a board that does not know it; the count is the least that says everything.
function settingsCountOf(station, atLeast = 2) {
    const needed = station.edition !== 1 ? 5 : station.q !== 1 ? 4 : station.w !== 0 ? 3 : 2;
    return Math.max(needed, atLeast);
}

const UNFINISHED = { unfinished: true };

export function filledSheet(lib, table) {
    const model = readTasks(lib, table);
    if (isUnfinished(model)) return UNFINISHED;
    const unfilled = lib.write(model.tasks, model.station, settingsCountOf(model.station, table.settingsCount));
    return unfilled.number === 0 ? lib.fill(unfilled.bytes) : unfilled;
}

export function officeText(lib, table) {
    const model = readTasks(lib, table);
    return isUnfinished(model) ? UNFINISHED : lib.exportText(model.tasks);
}

// The verdict on a sheet's results, what stands in it, and the plain finder's answer for its table.
export function comparedSheet(lib, bytes) {
    const verdict = lib.check(bytes);
    const read = lib.read(bytes);
    return read.number === 0 ? { verdict, read, ours: lib.plain(read.rows, read.station) } : { verdict, read };
}
