// The questions that the page asks of the library, each answered by one value or more. A worker runs them, or the page's own thread.
import { openLibrary } from './library.js';
import { judge, judgeWide } from './plan.js';
import { helps, helpsWide } from './helps.js';
import { comparedSheet, filledSheet, officeText } from './sheets.js';
import { WASM } from './built.js';

export const ANSWERS = {
    *judged(lib, { tasks, wide }) { yield { tasks: judge(lib, tasks), wide: judgeWide(lib, wide) }; },
    *helps(lib, { which, model }) { yield* which === 'wide' ? helpsWide(lib, model) : helps(lib, model); },
    *filled(lib, table) { yield filledSheet(lib, table); },
    *office(lib, table) { yield officeText(lib, table); },
    *compared(lib, bytes) { yield comparedSheet(lib, bytes); },
};

export const openOwnLibrary = () => openLibrary(Uint8Array.from(atob(WASM), each => each.charCodeAt(0)));

// Answers what a worker is sent: each value, and then that it is done.
export function serve(worker) {
    const opened = openOwnLibrary();
    worker.onmessage = async ({ data: { what, question } }) => {
        const lib = await opened;
        for (const value of ANSWERS[what](lib, question)) if (value) worker.postMessage({ value });
        worker.postMessage({ done: true });
    };
}
