// A clerk asks the library one question at a time, in a worker, so that the page stays awake.
import { ANSWERS, openOwnLibrary } from './answers.js';

// For how many milliseconds the page's own thread answers before it looks at the keyboard again.
const SLICE = 12;
// For how many a newer question waits before it ends the one that is being answered.
const PATIENCE = 150;

// The page opens from disk and has no second file, so that a worker runs the page's first script once more.
function openWorker() {
    const source = `${document.getElementById('answers').textContent}\nserve(self);`;
    const url = URL.createObjectURL(new Blob([source], { type: 'text/javascript' }));
    const worker = new Worker(url);
    URL.revokeObjectURL(url);
    return worker;
}

// The same on the page's own thread, some values at a time.
function openOwnThread() {
    const opened = openOwnLibrary();
    const thread = { ended: false, onmessage: null, terminate() { thread.ended = true; } };
    thread.postMessage = async ({ what, question }) => {
        const values = ANSWERS[what](await opened, question);
        function some() {
            const until = performance.now() + SLICE;
            while (!thread.ended) {
                const { value, done } = values.next();
                if (value || done) thread.onmessage({ data: done ? { done } : { value } });
                if (done) return;
                if (performance.now() > until) { setTimeout(some, 0); return; }
            }
        }
        some();
    };
    return thread;
}

let hasWorkers = true;

function openThread() {
    if (!hasWorkers) return openOwnThread();
    try {
        return openWorker();
    } catch {
        hasWorkers = false;
        return openOwnThread();
    }
}

export class Clerk {
    #thread = null;
    #running = null;
    #waiting = null;
    #timer = 0;

    ask(what, question, onValue, onDone = () => {}) {
        const asked = { what, question, onValue, onDone };
        if (!this.#running) { this.#start(asked); return; }
        this.#waiting = asked;
        if (this.#timer === 0) this.#timer = setTimeout(() => this.#stop(), PATIENCE);
    }

    // What was asked is wanted no more.
    leave() {
        this.#waiting = null;
        if (this.#running) this.#stop();
    }

    #start(asked) {
        this.#thread ??= openThread();
        this.#running = asked;
        this.#thread.onmessage = ({ data }) => this.#take(data);
        // A browser that lets no worker start from a file may say so only now.
        this.#thread.onerror = () => {
            hasWorkers = false;
            this.#thread = null;
            this.#start(asked);
        };
        this.#thread.postMessage({ what: asked.what, question: asked.question });
    }

    // An answer to an older question is not handed on.
    #take({ value, done }) {
        const { onValue, onDone } = this.#running;
        if (done) this.#running = null;
        if (done && this.#waiting) this.#startWaiting();
        else if (done) onDone();
        else if (!this.#waiting) onValue(value);
    }

    #startWaiting() {
        clearTimeout(this.#timer);
        this.#timer = 0;
        const asked = this.#waiting;
        this.#waiting = null;
        if (asked) this.#start(asked);
    }

    #stop() {
        this.#thread.onmessage = null;
        this.#thread.terminate();
        this.#thread = null;
        this.#running = null;
        this.#startWaiting();
    }
}
