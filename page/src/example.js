// A laser station that marks lasts: 20 tasks on two processors, times in microseconds, and a second marking head, an option that is switched off.

const task = (name, c, tmin, tmax, e, on = true) => ({ on, name, c: String(c), tmin: String(tmin), tmax: String(tmax), e: String(e) });

export const EXAMPLE = {
    policy: 4, m: '2', w: '2', q: '10', edition: '1',
    rows: [
        task('Encoder', 30, 250, 250, 0),
        task('Beam queue', 90, 500, 500, 0),
        task('Galvo X', 50, 500, 700, 400),
        task('Galvo Y', 50, 500, 700, 400),
        task('Safety chain', 20, 1000, 1000, 0),
        task('Field bus', 110, 1000, 2000, 300),
        task('Laser power', 100, 1000, 2000, 800),
        task('Focus axis', 150, 1000, 2000, 900),
        task('Conveyor', 180, 2000, 4000, 600),
        task('Rotary clamp', 220, 2000, 4000, 700),
        task('Camera', 900, 8000, 16000, 1000),
        task('Code reader', 5200, 20000, 40000, 2400),
        task('Last finder', 9000, 40000, 60000, 2500),
        task('Mark layout', 3000, 20000, 30000, 1400),
        task('Chiller watch', 300, 10000, 50000, 300),
        task('Fume extractor', 400, 10000, 50000, 500),
        task('Panel', 4500, 50000, 200000, 1100),
        task('Production log', 6000, 100000, 500000, 600),
        task('Remote service', 8000, 100000, 500000, 1200),
        task('Height scanner', 1400, 5000, 9000, 1000),
        task('Second head', 330, 500, 550, 300, false),
    ],
};

const wide = (name, c, l, tmin, tmax, e) => ({ ...task(name, c, tmin, tmax, e), l: String(l) });

export const WIDE_EXAMPLE = {
    m: '8',
    rows: [
        wide('Find the last', 90000, 8000, 25000, 60000, 2000),
        wide('Read the code', 42000, 5000, 20000, 40000, 1500),
        wide('Surface scan', 64000, 12000, 40000, 60000, 900),
    ],
};
