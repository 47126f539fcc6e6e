// What a text needs, and what a list of ranges names. Their tables of Unicode are a module of their own, so that pages
// that need neither do not fetch it.

import { BAD_TEXT, charactersOf, codesIn, pairsIn } from './kinds.js';
import { Areas, Module } from './module.js';

/** The module of texts. */
export const texts = new Module('await initTexts() first, for texts of layout and variable cuts and for lists');

/**
 * Compiles the module of texts, and returns it. With no source it is `fontcut_text.wasm` beside this file, compiled
 * once.
 */
export function initTexts(source) {
    return texts.load(source, () => new URL('fontcut_text.wasm', import.meta.url));
}

// The ranges that a call writes for a text. `refused` throws what it says of what starts at a place of its bytes.
function rangesBy(name, text, refused) {
    charactersOf(text);
    const data = new TextEncoder().encode(text);
    const numbers = new Areas(texts).within((areas) => {
        const given = areas.copy(data);
        return areas.written(256, 8, (...room) => {
            const answer = areas.answer(name, ...given, ...room);
            return answer.status === BAD_TEXT ? refused(data.subarray(answer.detail)) : answer;
        });
    });
    return pairsIn(new Uint32Array(numbers.buffer));
}

/** The characters that a text needs, as pairs of the first and the last of a range, ascending. */
export const rangesNeeded = (text) => rangesBy('needed', text);

/**
 * The characters that a text needs, each once, in the order of their code points: its own, and those that a shaper
 * takes for them or puts in beside them.
 */
export function needed(text) {
    return codesIn(rangesNeeded(text)).map((code) => String.fromCodePoint(code)).join('');
}

function badWord(bytes) {
    const [word] = new TextDecoder().decode(bytes).split(/[ \t\r\n,;#]/, 1);
    throw new RangeError(`fontcut: bad word '${word.slice(0, 40)}': a range is written U+41, U+41-5A, U+4?? or all`);
}

/** The code points that a list of ranges names, as pairs of the first and the last of a range, ascending. */
export const ranges = (words) => rangesBy('ranges', String(words), badWord);
