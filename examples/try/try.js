// Cuts of a font for two texts, their join, and how the browser draws them. All of it happens in the page.

import { Font, FontcutError, glyphs, init, initTexts, join, needed, subset, unshaped }
    from '../../bindings/web/fontcut.js';

const SAMPLE = 'DejaVuSans.ttf';
const SHAPED = ['layout', 'variable'];
const VARIATIONS = ['fvar', 'gvar'];
const NAMED = 5; // how many of the missing characters are named
// The header of a font file, and a record of its table directory, in bytes (OpenType 1.9, Table Directory).
const HEADER = 12, RECORD = 16;
const byId = (id) => document.getElementById(id);
// The font that is tried: its name, its bytes, and its place in the module. And how often what is shown has changed.
let name, bytes, font, changes = 0;

/** The tags of the tables of a font. */
function tagsOf(file) {
    const view = new DataView(file.buffer, file.byteOffset, file.byteLength);
    return Array.from({ length: view.getUint16(4) }, (_, at) => String.fromCharCode(
        ...file.subarray(HEADER + at * RECORD, HEADER + at * RECORD + 4)));
}

/** The cuts for two texts, their join, and the cut for both texts at once. */
function madeFor(first, second, kind) {
    const [one, two] = [first, second].map((text) => subset(font, { text, kind, quiet: true }));
    const texts = SHAPED.includes(kind) ? needed(first) + needed(second) : first + second;
    const both = subset(font, { text: texts, kind, exactly: true, quiet: true });
    return { one, two, both, joined: join([one, two], { kind }) };
}

/** What a cut for a text does not have, each in a sentence. */
function lost(text, kind, cut) {
    const characters = [...new Set(text)].filter((one) => !/\s/.test(one));
    const found = characters.length > 0 ? glyphs(font, characters.join('')) : [];
    const missing = characters.filter((_, at) => found[at] === 0);
    const tags = tagsOf(cut), dropped = tagsOf(bytes).filter((tag) => !tags.includes(tag));
    const said = [], more = missing.length > NAMED ? ` and ${missing.length - NAMED} more` : '';
    if (missing.length > 0) {
        said.push(`The font itself has no ${missing.slice(0, NAMED).join(', ')}${more}.`);
    }
    const letter = unshaped(font, { text, kind });
    if (letter !== undefined) {
        said.push(`Letters such as ${letter} need layout tables to be drawn right: take a layout cut.`);
    }
    if (VARIATIONS.every((tag) => dropped.includes(tag))) {
        said.push('Axes of a variable font: the cut is its default instance.');
    }
    said.push(dropped.length > 0 ? `Tables: ${dropped.join(', ')}.` : 'It has every table of the font.');
    return said;
}

/** How many bytes a file has after gzip. */
async function packedSize(file) {
    const stream = new Blob([file]).stream().pipeThrough(new CompressionStream('gzip'));
    return (await new Response(stream).arrayBuffer()).byteLength;
}

/** A file as it is to be shown: loaded as a font of its own, which browsers refuse where it has no character. */
async function loaded(file, family) {
    const face = await new FontFace(family, file.slice().buffer).load().catch(() => undefined);
    return { file, face, family, packed: await packedSize(file) };
}

/** Shows a file in its section: its size, a text that is drawn in it, and a link by which it is saved. */
function fill(id, { file, face, family, packed }, text) {
    const section = byId(id), [title] = section.children;
    section.querySelectorAll('a').forEach((link) => URL.revokeObjectURL(link.href));
    const size = document.createElement('p'), drawn = document.createElement('p'), link = document.createElement('a');
    size.textContent = `${file.length.toLocaleString('en')} bytes, ${packed.toLocaleString('en')} after gzip. `;
    const href = URL.createObjectURL(new Blob([file]));
    Object.assign(link, { href, download: `${id}-${name}`, textContent: 'Save' });
    size.append(link);
    Object.assign(drawn, { className: 'drawn', dir: 'auto', textContent: text });
    drawn.style.fontFamily = `"${family}", monospace`;
    if (face) {
        document.fonts.add(face);
    } else {
        size.append('. It has no character.');
    }
    section.replaceChildren(title, size, drawn);
}

const areSame = (one, other) => one.length === other.length && one.every((byte, at) => byte === other[at]);

/** Makes what the form asks for, and shows it. */
async function show() {
    const change = ++changes;
    const [first, second] = ['first', 'second'].map((id) => byId(id).value);
    const kind = new FormData(document.querySelector('form')).get('kind');
    const { one, two, joined, both } = madeFor(first, second, kind), texts = `${first}\n${second}`;
    const shown = { whole: [bytes, texts], joined: [joined, texts], one: [one, first], two: [two, second] };
    const faces = await Promise.all(Object.entries(shown).map(
        async ([id, [file, text]]) => [id, await loaded(file, `fontcut-${id}-${change}`), text]));
    if (change !== changes) {
        return; // the form has changed since
    }
    document.fonts.clear();
    faces.forEach((one) => fill(...one));
    byId('lost').replaceChildren(...lost(first + second, kind, joined).map(
        (text) => Object.assign(document.createElement('li'), { textContent: text })));
    byId('said').textContent = areSame(joined, both)
        ? 'The join of both cuts is byte for byte the cut for both texts.'
        : 'The join of both cuts is not the cut for both texts.';
    byId('files').hidden = false;
}

/** Does something, and says why where it cannot be done. What was shown before stays then. */
async function trying(task) {
    byId('failed').hidden = true;
    try {
        await task();
    } catch (error) {
        const isRefused = error instanceof FontcutError;
        byId('failed').textContent = isRefused ? `fontcut refuses it: ${error.text}.` : String(error.message ?? error);
        byId('failed').hidden = false;
    }
}

/** Takes another font, if it is accepted. */
async function take(file, called) {
    const opened = new Font(file);
    font?.free();
    [name, bytes, font] = [called, file, opened];
    byId('name').textContent = called;
    await show();
}

const takeFile = (file) => file && trying(async () => take(new Uint8Array(await file.arrayBuffer()), file.name));

const takeSample = () => trying(async () => {
    const answer = await fetch(new URL(SAMPLE, import.meta.url));
    await take(new Uint8Array(await answer.arrayBuffer()), SAMPLE);
});

byId('file').addEventListener('change', ({ target }) => takeFile(target.files[0]));
byId('sample').addEventListener('click', takeSample);
document.querySelector('form').addEventListener('input', ({ target }) => target.type !== 'file' && trying(show));
for (const kind of ['dragover', 'dragleave', 'drop']) {
    document.addEventListener(kind, (event) => {
        event.preventDefault();
        document.body.classList.toggle('over', kind === 'dragover');
        takeFile(kind === 'drop' && event.dataTransfer.files[0]);
    });
}

await trying(() => Promise.all([init(new URL('../../gen/fontcut.wasm', import.meta.url)),
    initTexts(new URL('../../gen/fontcut_text.wasm', import.meta.url))]));
await takeSample();
document.body.dataset.ready = 'true';
