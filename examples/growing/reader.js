// A page whose font grows while it is read: paragraphs that come near the window are added to it, and then shown.
import { GrowingFont } from '/package/growing.js';

const { name, kind } = document.body.dataset;
export const font = new GrowingFont('Reader', `/fonts/${name}`, { kind });

const report = document.querySelector('output'), size = (bytes) => `${(bytes / 1000).toFixed(1)} KB`;

// Says what was fetched so far, and how long the font is.
function tell() {
    const fetched = performance.getEntriesByType('resource').filter((one) => one.name.includes('/fonts/'));
    const bytes = fetched.reduce((sum, { encodedBodySize }) => sum + encodedBodySize, 0);
    const length = font.bytes.length;
    report.textContent = `${fetched.length} requests, ${size(bytes)} on the wire; the font has ${size(length)}`;
}

// What cannot be fetched is shown in another font.
async function add(text, elements = []) {
    try {
        await font.add(text);
        tell();
    } catch (error) {
        report.textContent = String(error);
    }
    elements.forEach((one) => one.classList.add('shown'));
}

// All paragraphs that come near at once are one request.
const near = new IntersectionObserver((entries) => {
    const elements = entries.filter(({ isIntersecting }) => isIntersecting).map(({ target }) => target);
    elements.forEach((one) => near.unobserve(one));
    add(elements.map((one) => one.textContent).join('\n'), elements);
}, { rootMargin: '50%' });

// The letters of a word that is marked so are fetched one by one, each by a request of its own.
async function addApart(word) {
    for (const letter of new Set(word.textContent.trim())) {
        await add(letter);
    }
    word.classList.add('shown');
}

await Promise.all([...document.querySelectorAll('.apart')].map(addApart));
document.querySelectorAll('article p').forEach((one) => near.observe(one));

const written = document.querySelector('[contenteditable]');
written.addEventListener('input', () => add(written.textContent));
