// The proved library. Each call lays what goes in on the desk of shim.c, in the memory of the WebAssembly, and takes its answer from there.

export const WHOLE = 1000000; // the parts of one processor
const MOST_TASKS = 32;
export const MOST_ROWS = 1024; // that the desk has room for
export const MOST_PROCESSORS = 16;
export const LONGEST_PERIOD = 1000000000;
export const FULL = 999999; // no table gives way any further at a later step

const MOST_GIVEN = 65536;
const MOST_WRITTEN = 4096;

const STATION = ['policy', 'm', 'w', 'q', 'edition'];
const TASK = ['c', 'tmin', 'tmax', 'e'];
const ANSWER = ['number', 'place', 'step', 'looks', 'least', 'more', 'count', 'settingsCount', 'resultsCount'];

// The desk's places as arrays of numbers.
function layDesk(exports) {
    const list = (Kind, name, count) => new Kind(exports.memory.buffer, exports[name].value, count);
    return {
        station: list(Uint16Array, 'station', STATION.length),
        rows: list(Uint32Array, 'rows', TASK.length * MOST_ROWS),
        wideRows: list(Uint32Array, 'wide_rows', 6 * MOST_ROWS),
        wideCosts: list(BigUint64Array, 'wide_rows', 3 * MOST_ROWS),
        results: list(Uint32Array, 'results', 2 * MOST_TASKS),
        periods: list(Uint32Array, 'periods', MOST_TASKS),
        processors: list(Uint16Array, 'processors', MOST_TASKS),
        without: list(Uint32Array, 'without', MOST_TASKS),
        proposal: list(Uint16Array, 'proposal', MOST_TASKS),
        loads: list(Uint32Array, 'loads', MOST_PROCESSORS),
        given: list(Uint8Array, 'given', MOST_GIVEN),
        written: list(Uint8Array, 'written', MOST_WRITTEN),
        margin: list(BigInt64Array, 'answer', 1),
        answer: list(Uint32Array, 'answer', 2 + ANSWER.length),
    };
}

const first = (list, n) => Array.from(list.subarray(0, n));

function putRows(desk, rows) {
    if (rows.length > MOST_ROWS) throw new RangeError(`more than ${MOST_ROWS} tasks`);
    rows.forEach((row, i) => desk.rows.set(TASK.map(field => row[field]), TASK.length * i));
}

function putTable(desk, rows, station) {
    desk.station.set(STATION.map(setting => station[setting]));
    putRows(desk, rows);
}

function putBytes(desk, bytes) {
    if (bytes.length > MOST_GIVEN) throw new RangeError(`more than ${MOST_GIVEN} bytes`);
    desk.given.set(bytes);
}

// The C of a task that needs several cores has 64 bits.
function putWideRow(desk, row, i) {
    desk.wideCosts[3 * i] = BigInt(row.c);
    desk.wideRows.set([row.l, row.tmin, row.tmax, row.e], 6 * i + 2);
}

function takeRows(desk, n) {
    return Array.from({ length: n }, (_, i) => Object.fromEntries(TASK.map((field, j) => [field, desk.rows[TASK.length * i + j]])));
}

// A processor has 16 bits; what stands behind it is no part of it.
function takeResults(desk, n) {
    return Array.from({ length: n }, (_, i) => ({ period: desk.results[2 * i], processor: desk.results[2 * i + 1] & 0xffff }));
}

// The margin stands first, in the room of two numbers.
const told = desk => Object.fromEntries(ANSWER.map((name, i) => [name, desk.answer[2 + i]]));

// What a call told, and where it accepted, what it wrote.
function takeAnswer(desk, written) {
    const answer = told(desk);
    return answer.number === 0 ? { ...answer, ...written(answer) } : answer;
}

const takePlan = (desk, n) => takeAnswer(desk, () => ({ periods: first(desk.periods, n), processors: first(desk.processors, n) }));
const takeBytes = desk => takeAnswer(desk, answer => ({ bytes: desk.written.slice(0, answer.count) }));

// The finders, the margin, the relief, the checker of a proposal.
const tableCalls = (desk, call) => ({
    plain(rows, station) {
        putTable(desk, rows, station);
        call.plain(rows.length);
        return takePlan(desk, rows.length);
    },
    quick(rows, station) {
        putTable(desk, rows, station);
        call.quick(rows.length);
        return takePlan(desk, rows.length);
    },
    margin(rows, station, step) {
        putTable(desk, rows, station);
        call.margin(rows.length, step);
        return { ...told(desk), margin: Number(desk.margin[0]) };
    },
    // A step is told as a number: 0 for none, else the step + 1.
    relief(rows, station) {
        putTable(desk, rows, station);
        call.relief(rows.length);
        return takeAnswer(desk, () => ({ without: first(desk.without, rows.length) }));
    },
    checkProposal(rows, station, step, proposal) {
        putTable(desk, rows, station);
        desk.proposal.set(proposal);
        call.check_proposal(rows.length, step, proposal.length);
        return takeAnswer(desk, () => ({ loads: first(desk.loads, station.m) }));
    },
    wide(rows, m) {
        if (rows.length > MOST_ROWS) throw new RangeError(`more than ${MOST_ROWS} tasks`);
        desk.station.set([0, m, 0, 0, 0]);
        rows.forEach((row, i) => putWideRow(desk, row, i));
        call.wide(rows.length);
        return takePlan(desk, rows.length);
    },
});

const sheetCalls = (desk, call) => ({
    read(bytes) {
        putBytes(desk, bytes);
        call.read_sheet(bytes.length);
        return takeAnswer(desk, answer => ({
            station: Object.fromEntries(STATION.map((setting, i) => [setting, desk.station[i]])),
            rows: takeRows(desk, answer.count),
            results: takeResults(desk, answer.resultsCount),
        }));
    },
    write(rows, station, settingsCount, results = []) {
        putTable(desk, rows, station);
        results.forEach((result, i) => desk.results.set([result.period, result.processor], 2 * i));
        call.write_sheet(settingsCount, rows.length, results.length);
        return takeBytes(desk);
    },
    fill(bytes) {
        putBytes(desk, bytes);
        call.fill_sheet(bytes.length);
        return takeBytes(desk);
    },
    check(bytes) {
        putBytes(desk, bytes);
        call.check_sheet(bytes.length);
        return told(desk);
    },
});

const textCalls = (desk, call) => ({
    importText(bytes) {
        putBytes(desk, bytes);
        call.import_text(bytes.length);
        return takeAnswer(desk, answer => ({ rows: takeRows(desk, answer.count) }));
    },
    exportText(rows) {
        putRows(desk, rows);
        call.export_text(rows.length);
        return takeBytes(desk);
    },
});

// One record: the number of the first limit that it breaks, 0 where it is good; and its share.
const recordCalls = (desk, call) => ({
    reason(task, station) {
        putTable(desk, [task], station);
        return call.reason();
    },
    wideReason(task) {
        putWideRow(desk, task, 0);
        return call.wide_reason();
    },
    share(task, station, step) {
        putTable(desk, [task], station);
        return call.share(step);
    },
});

const ALL_CALLS = [tableCalls, recordCalls, sheetCalls, textCalls];

export async function openLibrary(bytes) {
    const { instance } = await WebAssembly.instantiate(bytes, {});
    const desk = layDesk(instance.exports);
    return Object.assign({}, ...ALL_CALLS.map(calls => calls(desk, instance.exports)));
}
