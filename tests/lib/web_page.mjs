// The page of tests/web_module: compares the package with the native library in a browser, and reports to the server.
import * as fontcut from '/package/fontcut.js';
import { GrowingFont } from '/package/growing.js';
import { compare } from './web_compare.mjs';

const load = async (name) => new Uint8Array(await (await fetch(`/cases/${name}`)).arrayBuffer());
const isSame = (one, other) => one.length === other.length && one.every((byte, at) => byte === other[at]);

// Whether a worker that is handed the module cuts the same, and whether the browser takes the cut as a font.
async function byWorker(module, font) {
    const wanted = { text: 'Hello', kind: 'lean' }, here = fontcut.subset(font, wanted);
    const worker = new Worker('/lib/web_worker.mjs', { type: 'module' });
    const there = await new Promise((done, failed) => {
        worker.onmessage = ({ data }) => done(data);
        worker.onerror = failed;
        worker.postMessage({ module, font, wanted });
    });
    return [isSame(here, there), (await new FontFace('Cut', there).load()).status];
}

// Whether a font that grew is the cut for its text, and how many faces the page has then. The server is this page.
async function grown(font) {
    const own = globalThis.fetch;
    globalThis.fetch = async (url) => {
        const query = new URL(url, location.href).searchParams;
        return new Response(fontcut.subset(font, { unicodes: query.get('unicodes'), kind: 'lean' }));
    };
    const growing = new GrowingFont('Grown', '/font.ttf');
    await Promise.all(['Hello', 'Hello, world', 'ABC'].map((text) => growing.add(text)));
    globalThis.fetch = own;
    const wanted = fontcut.subset(font, { text: 'Hello, worldABC', kind: 'lean' });
    return [isSame(growing.bytes, wanted), document.fonts.size];
}

const report = { error: null, agent: navigator.userAgent };
try {
    const [module] = await Promise.all([fontcut.init(), fontcut.initTexts()]), font = await load('1.bin');
    report.worker = await byWorker(module, font);
    report.grown = await grown(font);
    report.compare = await compare(fontcut, JSON.parse(new TextDecoder().decode(await load('cases.json'))), load);
} catch (error) {
    report.error = String(error?.stack ?? error);
}
await fetch('/report', { method: 'POST', body: JSON.stringify(report) });
