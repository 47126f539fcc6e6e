// The slices of a font for the web, by the names that `fontcut-web slice` knows.
//
//     import { slices } from 'fontcut/slices';
//     for (const { name, unicodes } of await slices(font, ['latin', 'japanese'])) {
//         const cut = subset(font, { unicodes, kind: 'lean' });      // and a rule with `unicode-range: ${unicodes}`
//     }
//
// The lists beside this file are fetched, or read in node, when they are first needed. They are those of the module for
// Python, and lists/NOTICE.txt is Unicode's permission notice.
import { codes, initTexts, ranges } from './fontcut.js';
import { codesIn, rangeWords } from './kinds.js';

// Each list by an address of its own, which bundlers see.
const LISTS = {
    'web.txt': new URL('./lists/web.txt', import.meta.url),
    'scripts.txt': new URL('./lists/scripts.txt', import.meta.url),
    'languages.json': new URL('./lists/languages.json', import.meta.url),
    'chinese-simplified.txt': new URL('./lists/chinese-simplified.txt', import.meta.url),
    'chinese-traditional.txt': new URL('./lists/chinese-traditional.txt', import.meta.url),
    'japanese.txt': new URL('./lists/japanese.txt', import.meta.url),
    'korean.txt': new URL('./lists/korean.txt', import.meta.url),
};
// How many slices a language has, and how many characters each of those has at least that follow the first ones.
const PARTS = 100, LEAST = 50;
const MOST_EQUAL = 9999;
const FEW_BYTES = 'few-bytes';
// What an order ranks after the characters that it lists.
const IDEOGRAPHS = [[0x3400, 0x4DBF], [0x4E00, 0x9FFF], [0xF900, 0xFAFF], [0x20000, 0x323AF]];
// The scripts whose presets have other names, and how many of a language's first characters tell that a font is of it.
const OF_WEB = [['latin', 'latin-ext', 'vietnamese'], ['greek', 'greek-ext'], ['cyrillic', 'cyrillic-ext']];
const OF_LANGUAGES = ['han', 'hangul', 'hiragana', 'katakana', 'bopomofo'];
const TELLING = 2000;
// A preset of which a font has fewer characters has no slice of its own.
const FEW = 8;

const read = new Map();

async function fetched(name) {
    const url = LISTS[name];
    if (url.protocol === 'file:' && globalThis.process?.versions?.node) {
        const { readFile } = await import(/* webpackIgnore: true */ /* @vite-ignore */ 'node:fs/promises');
        return readFile(url, 'utf8');
    }
    const answer = await fetch(url);
    if (!answer.ok) {
        throw new Error(`fontcut: ${url} answers ${answer.status}`);
    }
    return answer.text();
}

// The text of a list. One that could not be fetched is fetched again.
function textOf(name) {
    if (!read.has(name)) {
        const text = fetched(name);
        read.set(name, text);
        text.catch(() => read.delete(name));
    }
    return read.get(name);
}

async function linesOf(name) {
    const lines = (await textOf(name)).split('\n').filter((line) => line && !line.startsWith('#'));
    return new Map(lines.map((line) => [line.slice(0, line.indexOf(' ')), line.slice(line.indexOf(' ') + 1)]));
}

const charactersOf = (text) => Array.from(text.replace(/[\s\uFEFF]/g, ''), (letter) => letter.codePointAt(0));

const numbered = (front, count) => Array.from({ length: count }, (_, i) =>
    `${front}${String(i + 1).padStart(String(count).length, '0')}`);

// Codes in an order, and then those that it lacks, by their codes.
function byUse(given, order) {
    const left = new Set(given), first = [...new Set(order)].filter((code) => left.delete(code));
    return [...first, ...[...left].sort((one, other) => one - other)];
}

// The slices of codes that have these sizes, and then as many of the same size.
function divided(names, given, sizes, parts) {
    let end = 0;
    const ends = [0, ...sizes.map((size) => end += size)], rest = Math.max(0, given.length - end);
    for (let part = 1; part <= parts; part++) {
        ends.push(end + Math.floor(rest * part / parts));
    }
    return names.slice(0, ends.length - 1).map((name, i) =>
        ({ name, codes: given.slice(ends[i], ends[i + 1]).sort((one, other) => one - other) }));
}

function listed(name, words, left) {
    const inside = new Set(codesIn(ranges(words)));
    return [{ name, codes: left.filter((code) => inside.has(code)) }];
}

async function orderOf(language) {
    return [...charactersOf(await textOf(`${language}.txt`)), ...codesIn(IDEOGRAPHS)];
}

// The slices of a language: one of its signs, and those of its characters by their use.
async function ranked(name, size, order, left) {
    const said = JSON.parse(await textOf('languages.json'))[name], known = await orderOf(name);
    const signs = listed(name, said.signs, left), taken = new Set(signs[0].codes), ranks = new Set(known);
    const own = left.filter((code) => ranks.has(code) && !taken.has(code));
    const sizes = said[size].flatMap(([count, each]) => Array(count).fill(each));
    const rest = Math.max(0, own.length - sizes.reduce((sum, each) => sum + each, 0));
    const parts = Math.min(PARTS - sizes.length, Math.ceil(rest / LEAST));
    return [...signs, ...divided(numbered(`${name}-`, PARTS), byUse(own, [...order, ...known]), sizes, parts)];
}

// Whether a text has a character of a script, which is named as a preset. An older engine does not know each script.
function hasScript(text, name) {
    const value = name === 'signwriting' ? 'SignWriting'
        : name.split('-').map((word) => word[0].toUpperCase() + word.slice(1)).join('_');
    try {
        return new RegExp(`\\p{Script=${value}}`, 'u').test(text);
    } catch {
        return false;
    }
}

// The language of whose first characters a font has most, the first of those of which it has as many.
async function languageOf(left) {
    const all = new Set(left);
    let best = ['', -1];
    for (const name of Object.keys(JSON.parse(await textOf('languages.json')))) {
        const count = (await orderOf(name)).slice(0, TELLING).filter((code) => all.has(code)).length;
        best = count > best[1] ? [name, count] : best;
    }
    return best[0];
}

// How many characters the slices of a preset have.
function countOf(slices, preset) {
    const own = slices.filter(({ name }) => name.replace(/-\d+$/, '') === preset);
    return own.reduce((sum, one) => sum + one.codes.length, 0);
}

// The presets of the scripts of a font, in the order of the presets, but for those of some names; and what is left.
async function automatic(taken, order, left) {
    const text = left.map((code) => String.fromCodePoint(code)).join('');
    const names = OF_WEB.filter(([script]) => hasScript(text, script)).flat();
    if (OF_LANGUAGES.some((script) => hasScript(text, script))) {
        names.push(await languageOf(left));
    }
    names.push(...[...(await linesOf('scripts.txt')).keys()].filter((script) => hasScript(text, script)));
    const wanted = names.filter((name) => !taken.includes(name));
    const all = await inTurn(wanted, order, left);
    const found = await inTurn(wanted.filter((name) => countOf(all, name) >= FEW), order, left);
    const sliced = new Set(found.flatMap((one) => one.codes));
    return [...found, { name: 'others', codes: left.filter((code) => !sliced.has(code)) }];
}

// The slices of one name.
async function named(word, all, order, left) {
    const [name, size = FEW_BYTES] = word.split(':');
    const said = JSON.parse(await textOf('languages.json'))[name];
    if (said && said[size] && size !== 'signs') {
        return ranked(name, size, order, left);
    }
    if (/^equal:[1-9][0-9]{0,3}$/.test(word) && Number(size) <= MOST_EQUAL) {
        return divided(numbered('', Number(size)), byUse(left, order), [], Number(size));
    }
    if (word === 'auto') {
        return automatic(all, order, left);
    }
    const words = (await linesOf('web.txt')).get(word) ?? (await linesOf('scripts.txt')).get(word);
    if (!words) {
        throw new RangeError(`fontcut: no slices have the name ${word}`);
    }
    return listed(word, words, left);
}

// The slices of each name in turn, of the characters that those before have left.
async function inTurn(names, order, all) {
    const found = [];
    let left = all;
    for (const word of names) {
        const made = await named(word, names, order, left), inside = new Set(made.flatMap((one) => one.codes));
        left = left.filter((code) => !inside.has(code));
        found.push(...made);
    }
    return found.filter((one) => one.codes.length);
}

/**
 * The slices of a font that have a character, by the names of presets. A character is only in the first slice that
 * names it. `order` is a text whose characters come first in slices by use.
 */
export async function slices(font, names, { order = '' } = {}) {
    await initTexts();
    const words = (await Promise.all(Array.from(names, async (name) =>
        name === 'web' ? [...(await linesOf('web.txt')).keys()] : [name]))).flat();
    const twice = words.map((word) => word.replace(/:few-.*/, '')).find((word, i, all) => all.indexOf(word) < i);
    if (twice) {
        throw new RangeError(`fontcut: two slices have the name ${twice}`);
    }
    const found = await inTurn(words, charactersOf(order), codesIn(codes(font)));
    return found.map((one) => ({ name: one.name, unicodes: rangeWords(one.codes, 'U+').join(', ') }));
}
