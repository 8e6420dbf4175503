// Numbers as people read and type them. Nothing here knows the rules of the pace setter.

const THIN = '\u202f';

// Digits in threes, from five digits on.
export function grouped(number) {
    const digits = String(number);
    return digits.length > 4 ? digits.replace(/\B(?=(\d{3})+(?!\d))/g, THIN) : digits;
}

// Parts of a processor as per cent; a small amount that is not nothing never reads as nothing.
export function percent(parts) {
    const value = parts / 10000;
    return (value !== 0 && Math.abs(value) < 0.1 ? value.toFixed(4) : value.toFixed(1)) + '%';
}

export const counted = (n, one, many) => `${n} ${n === 1 ? one : many}`;

// What a person types for a number, as the library's import reads it: without blanks, digit marks and leading zeros.
export const tidy = text => text.replace(/[\s'’_\u202f\u00a0]/g, '').replace(/^0+(?=\d)/, '');

export const isNumeric = text => /^\d+$/.test(tidy(text));
