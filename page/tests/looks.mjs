// The contrast of the text colours on their grounds, in light and in dark: at least 4.5, as WCAG asks: node page/tests/looks.mjs
import assert from 'node:assert/strict';
import { readFileSync } from 'node:fs';

const LEAST = 4.5;
const PAIRS = [
    ['ink', 'card'], ['ink', 'field'], ['ink', 'soft'], ['dim', 'card'], ['dim', 'bg'], ['dim', 'soft'], ['dim', 'field'], ['faint', 'card'],
    ['good-ink', 'good'], ['bad-ink', 'bad'], ['bad-ink', 'bg'], ['bad-ink', 'card'], ['warn-ink', 'warn'], ['warn-ink', 'card'], ['accent-ink', 'accent'],
];

const css = readFileSync(new URL('../page.css', import.meta.url), 'utf8');
const themes = [...css.matchAll(/:root \{([^}]*)\}/g)].slice(0, 2)
    .map(([, block]) => Object.fromEntries([...block.matchAll(/--([\w-]+): (#[0-9a-f]{3,6})/g)].map(([, name, value]) => [name, value])));

function lightness(colour) {
    const full = colour.length === 4 ? colour.replace(/[0-9a-f]/g, '$&$&') : colour;
    const [red, green, blue] = [1, 3, 5].map(at => parseInt(full.slice(at, at + 2), 16) / 255)
        .map(part => (part <= 0.03928 ? part / 12.92 : ((part + 0.055) / 1.055) ** 2.4));
    return 0.2126 * red + 0.7152 * green + 0.0722 * blue;
}

function contrast(one, other) {
    const [dark, light] = [lightness(one), lightness(other)].sort((a, b) => a - b);
    return (light + 0.05) / (dark + 0.05);
}

assert.equal(themes.length, 2, 'light and dark');
for (const [i, theme] of themes.entries()) {
    for (const [text, ground] of PAIRS) {
        const ratio = contrast(theme[text], theme[ground]);
        assert.ok(ratio >= LEAST, `${['light', 'dark'][i]}: ${text} on ${ground} has ${ratio.toFixed(2)}`);
    }
}
console.log(`${2 * PAIRS.length} pairs`);
