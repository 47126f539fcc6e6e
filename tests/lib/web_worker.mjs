// A worker of tests/lib/web_page.mjs: it is handed the compiled module and a font, and cuts off the page's thread.
import { init, subset } from '/package/fontcut.js';

onmessage = async ({ data: { module, font, wanted } }) => {
    await init(module);
    const cut = subset(font, wanted);
    postMessage(cut, [cut.buffer]);
};
