// What is said at a cell. Which sentence holds is an answer of the library; the page has its words, and which cells to look at.

// Why a record is not good, in the order of docs/refusals.txt: the library tells the number of the first that holds, from 1.
const REASONS = [
    { cells: ['c'], words: () => 'The cost is 0: a task takes at least 1 tick.' },
    {
        cells: ['c', 'tmin'],
        words: (task, { w }) => (w > 0
            ? `Cost ${task.c} and two swaps of ${w} are more than the shortest period ${task.tmin}.`
            : `Cost ${task.c} is more than the shortest period ${task.tmin}.`),
    },
    { cells: ['tmin', 'tmax'], words: task => `The shortest period ${task.tmin} is above the longest ${task.tmax}.` },
    { cells: ['tmax'], words: () => 'The longest period is above 1,000,000,000.' },
    { cells: ['e'], words: () => 'The elasticity is above 1,000,000.' },
    { cells: ['tmin'], words: (task, { q }) => `The shortest period ${task.tmin} is no whole number of notches of ${q}.` },
    { cells: ['tmax'], words: (task, { q }) => `The longest period ${task.tmax} is no whole number of notches of ${q}.` },
];

// The same for a task that needs several cores.
const WIDE_REASONS = [
    { cells: ['l'], words: () => 'The span is 0: it is at least 1 tick.' },
    { cells: ['l', 'tmin'], words: task => `The span ${task.l} must be below the shortest period ${task.tmin}.` },
    { cells: ['l', 'c'], words: task => `The span ${task.l} must be below the cost ${task.c}.` },
    { cells: ['tmax', 'c'], words: task => `The cost ${task.c} must be above the longest period ${task.tmax}: one core is enough for it.` },
    { cells: ['c', 'tmin'], words: task => `The cost ${task.c} is above 16 times the shortest period ${task.tmin}.` },
    { cells: ['tmin', 'tmax'], words: task => `The shortest period ${task.tmin} is above the longest ${task.tmax}.` },
    { cells: ['tmax'], words: () => 'The longest period is above 1,000,000,000.' },
    { cells: ['e'], words: () => 'The elasticity is above 1,000,000.' },
];

const said = (reason, task, station) => ({ cells: reason.cells, words: reason.words(task, station) });

export const reasonSaid = (number, task, station) => said(REASONS[number - 1], task, station);
export const wideReasonSaid = (number, task) => said(WIDE_REASONS[number - 1], task);

export const SETTINGS_SAID = {
    m: 'There are 1 to 16 processors.',
    q: 'The notch is at least 1 tick.',
    edition: 'The edition is 1 or 2.',
    oneCore: 'One-core RM runs on 1 processor.',
    cores: 'There are 1 to 16 cores.',
    number: 'A whole number from 0 to 65535.',
};

const FIELDS_SAID = { c: 'cost', l: 'span', tmin: 'shortest period', tmax: 'longest period', e: 'elasticity' };

export const missingSaid = field => ({ cells: [field], words: `The ${FIELDS_SAID[field]} is missing.`, missing: true });
export const noNumberSaid = (field, text) => ({ cells: [field], words: `“${text}” is no whole number that fits.` });
