// Compares what fontcut.js answers with what the native library did (tests/lib/web_cases.py), in node and in pages.

const FORMS = { none: 'NO_CUT', current: 'CURRENT', old: 'OLD' };

async function digestOf(data) {
    const digest = await crypto.subtle.digest('SHA-256', data);
    return Array.from(new Uint8Array(digest), (one) => one.toString(16).padStart(2, '0')).join('');
}

// By its name how each call is made of the files and of what else is given, as the native library's answer is written.
const callsOf = (fontcut) => ({
    check: ([font]) => fontcut.check(font) ?? null,
    codes: ([font]) => fontcut.codes(font),
    info: ([font]) => Object.values(fontcut.info(font)),
    glyphs: ([font], { codes }) => [...fontcut.glyphs(font, codes)],
    metrics: ([font], { glyphs }) => fontcut.metrics(font, glyphs).map(({ advance, bearing }) => [advance, bearing]),
    cutForm: ([font], given) => FORMS[fontcut.cutForm(font, given)],
    belongs: ([cut, font], given) => fontcut.belongs(cut, font, given),
    subset: ([font], given) => digestOf(fontcut.subset(font, given)),
    subsetSize: ([font], given) => fontcut.subsetSize(font, given),
    cuts: ([font], { sets, ...given }) => Promise.all(fontcut.cuts(font, sets, given).map(digestOf)),
    closure: ([font], given) => [...fontcut.closure(font, given)],
    keptGlyphs: ([font], given) => [...fontcut.keptGlyphs(font, given)],
    join: (files, given) => digestOf(fontcut.join(files, given)),
});

// What a call answers or refuses, and how many bytes it leaves in use.
async function answerOf(fontcut, { call, given }, files) {
    try {
        return { value: await callsOf(fontcut)[call](files, given) };
    } catch (error) {
        if (error instanceof fontcut.FontcutError) {
            return { refused: [error.number, error.text, error.argument ?? null, error.file ?? null] };
        }
        return { error: String(error?.stack ?? error) };
    }
}

// The calls that take a Font answer as those over its bytes do. What is no font makes no Font.
async function answerOfFont(fontcut, one, files) {
    let font;
    try {
        font = new fontcut.Font(files.at(-1));
        return await answerOf(fontcut, one, [...files.slice(0, -1), font]);
    } catch (error) {
        return { refused: [error.number, error.text, error.argument ?? null, one.call === 'belongs' ? 1 : null] };
    } finally {
        font?.free();
    }
}

// Makes each call; `load` reads a file. Returns how many calls there were, how many are refused, and what differs.
export async function compare(fontcut, cases, load) {
    const differ = [], read = new Map();
    let refused = 0;
    for (const one of cases) {
        for (const name of one.files) {
            read.has(name) || read.set(name, await load(name));
        }
        const files = one.files.map((name) => read.get(name)), wanted = JSON.stringify(one.wanted);
        const found = [JSON.stringify(await answerOf(fontcut, one, files))];
        if (one.call !== 'check' && one.call !== 'join' && !(one.call === 'belongs' && 'refused' in one.wanted)) {
            found.push(JSON.stringify(await answerOfFont(fontcut, one, files)));
        }
        const { inUse } = fontcut.memory();
        if (inUse !== 0 || found.some((text) => text !== wanted)) {
            const shown = found.map((text) => text.slice(0, 200));
            differ.push({ call: one.call, files: one.files, inUse, wanted: wanted.slice(0, 200), found: shown });
        }
        refused += 'refused' in one.wanted ? 1 : 0;
    }
    return { count: cases.length, refused, differ };
}
