// A font of a page that grows with its text. If the server sends the cuts that it is asked for, the font is byte for
// byte the cut for all characters so far.
//
//     import { GrowingFont } from 'fontcut/growing';
//     const font = new GrowingFont('Wenkai', '/LXGWWenKai-Regular.ttf');
//     await font.add('漢字');                  // fetches a cut for what is missing, and joins it to what is there
//
// The server answers `?unicodes=6F22,5B57&kind=lean` with the lean cut for these code points, as examples/server does,
// and with the layout cut or the variable cut if that is the kind. These two grow by all characters that a text needs,
// and by its variation sequences, which are asked for by `text`.
import { init, initTexts, join } from './fontcut.js';
import { KINDS, SHAPED, charactersOf, codesIn, rangeWords, sequencesIn } from './kinds.js';
import { rangesNeeded } from './texts.js';

const MOST_RANGES = 500, MOST_SEQUENCES = 60; // of one request, so that its query stays below 8,000 characters

export class GrowingFont {
    #family;
    #url;
    #kind;
    #descriptors;
    #known = new Set(); // the code points and the variation sequences that were asked for
    #bytes;
    #face;
    #last = Promise.resolve();

    /** `url` is where cuts of the font are fetched; `descriptors` are those of FontFace. */
    constructor(family, url, { kind = 'lean', descriptors = {} } = {}) {
        if (!KINDS.includes(kind)) {
            throw new RangeError(`fontcut: no kind of cut: ${kind}: it is full, lean, layout or variable`);
        }
        this.#family = family;
        this.#url = String(url);
        this.#kind = kind;
        this.#descriptors = descriptors;
    }

    /** The bytes of the font as it is now: a cut for all characters that were added. */
    get bytes() {
        return this.#bytes;
    }

    /**
     * Resolves when the font has what the text needs. Calls at the same time are done one after the other. If one
     * fails, the font stays as it was, and the next call asks for these characters again.
     */
    add(text) {
        const done = this.#last.then(() => this.#grow(text));
        this.#last = done.catch(() => {});
        return done;
    }

    async #grow(text) {
        const isShaped = SHAPED.includes(this.#kind), own = text.replace(/\p{Surrogate}/gu, '');
        if (isShaped) {
            await initTexts();
        }
        const codes = isShaped ? codesIn(rangesNeeded(own)) : [...new Set(charactersOf(own))];
        const missing = codes.filter((code) => !this.#known.has(code));
        const sequences = isShaped ? sequencesIn(own).filter((one) => !this.#known.has(one)) : [];
        if (!missing.length && !sequences.length) {
            return;
        }
        const [parts] = await Promise.all([this.#fetched(rangeWords(missing), sequences), init()]);
        // A single part is joined too, so that what is no cut is refused. Cuts of another font are refused by the join.
        const bytes = join(this.#bytes ? [this.#bytes, ...parts] : parts, { kind: this.#kind });
        await this.#show(bytes);
        this.#bytes = bytes;
        [...missing, ...sequences].forEach((one) => this.#known.add(one));
    }

    #fetched(words, sequences) {
        const count = Math.ceil(Math.max(words.length / MOST_RANGES, sequences.length / MOST_SEQUENCES));
        return Promise.all(Array.from({ length: count }, (_, i) => this.#fetchedOne(
            words.slice(MOST_RANGES * i, MOST_RANGES * (i + 1)),
            sequences.slice(MOST_SEQUENCES * i, MOST_SEQUENCES * (i + 1)))));
    }

    async #fetchedOne(words, sequences) {
        const asked = [...words.length ? [`unicodes=${words.join(',')}`] : [],
            ...sequences.length ? [`text=${encodeURIComponent(sequences.join(''))}`] : [],
            ...this.#kind === 'full' ? [] : [`kind=${this.#kind}`]];
        const url = `${this.#url}${this.#url.includes('?') ? '&' : '?'}${asked.join('&')}`;
        const answer = await fetch(url);
        if (!answer.ok) {
            throw new Error(`fontcut: ${url} answers ${answer.status}`);
        }
        return answer.arrayBuffer();
    }

    // The new face is loaded and added before the old one goes, so that no text is without a font in between.
    async #show(bytes) {
        const fonts = globalThis.document?.fonts ?? globalThis.fonts;
        const face = new FontFace(this.#family, bytes, this.#descriptors);
        await face.load();
        fonts.add(face);
        if (this.#face) {
            fonts.delete(this.#face);
        }
        this.#face = face;
    }
}
