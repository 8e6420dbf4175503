// Runs a program of WebAssembly over tests/wasm/libc.c on standard input, and ends with its status: node tests/wasm/run.mjs PROGRAM
import { readFileSync, writeSync } from 'node:fs';

const input = readFileSync(0);
const wrote = { 1: [], 2: [] };
let taken = 0;
let memory;

class Exit extends Error {
    constructor(status) {
        super();
        this.status = status;
    }
}

const host = {
    read(to, size) {
        const part = input.subarray(taken, taken + size);
        new Uint8Array(memory.buffer).set(part, to);
        taken += part.length;
        return part.length;
    },
    write(file, from, size) {
        wrote[file].push(new Uint8Array(memory.buffer.slice(from, from + size)));
    },
    exit(status) {
        throw new Exit(status);
    },
};

function run(program) {
    const { exports } = new WebAssembly.Instance(new WebAssembly.Module(program), { host });
    memory = exports.memory;
    try {
        return exports.main();
    } catch (end) {
        if (end instanceof Exit) return end.status;
        throw end;
    }
}

const status = run(readFileSync(process.argv[2]));
for (const file of [1, 2]) {
    const all = Buffer.concat(wrote[file]);
    for (let at = 0; at < all.length;) at += writeSync(file, all, at);
}
process.exit(status);
