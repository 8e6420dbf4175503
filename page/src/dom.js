// Elements of the page, and the colours of its processors.

function setProperty(node, key, value) {
    if (key === 'class') node.className = value;
    else if (key === 'style') for (const [name, is] of Object.entries(value)) node.style.setProperty(name, is);
    else if (key.startsWith('on')) node.addEventListener(key.slice(2), value);
    else node.setAttribute(key, value === true ? '' : value);
}

const isNothing = value => value === undefined || value === null || value === false;

// A new element with its attributes and listeners; what is nothing is left out.
export function el(name, properties = {}, ...children) {
    const node = document.createElement(name);
    for (const [key, value] of Object.entries(properties)) if (!isNothing(value)) setProperty(node, key, value);
    node.append(...children.flat().filter(child => !isNothing(child)));
    return node;
}

export const byId = id => document.getElementById(id);

const COLOURS = [
    '#0b6a8c', '#a04a00', '#5b3fa8', '#2c7430', '#a3195b', '#5d6600', '#2c49c7', '#b3261e',
    '#00706a', '#7a5200', '#7b1fa2', '#33691e', '#8a2846', '#006064', '#6d4c41', '#455a64',
];

// Processors from 1; any processor has the first colour.
export const colourOf = processor => COLOURS[(Math.max(1, processor || 1) - 1) % COLOURS.length];

export const nameOf = read => read.row.name.trim() || `task ${read.record}`;
