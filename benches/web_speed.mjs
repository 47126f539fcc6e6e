// Times what web_in_process.c times, by the package in node, and prints it in the same form:
// node web_speed.mjs PACKAGE FONT RANGES CUT.. MILLISECONDS LEAST
import { readFileSync } from 'node:fs';
import { pathToFileURL } from 'node:url';

const words = process.argv.slice(2);
const [place, path, listed] = words, [milliseconds, least] = words.slice(-2).map(Number);
const { Font, init, initTexts, join, ranges, subset } = await import(pathToFileURL(`${place}/fontcut.js`));
await Promise.all([init(), initTexts()]);

const font = new Font(readFileSync(path)), files = words.slice(3, -2).map((name) => readFileSync(name));
const unicodes = ranges(readFileSync(listed, 'latin1'));

const ways = [
    { name: 'cut', call: () => subset(font, { unicodes, kind: 'lean', quiet: true }), times: [], total: 0n },
    { name: 'join', call: () => join(files, { kind: 'lean' }), times: [], total: 0n },
];
const enough = BigInt(milliseconds) * 1000000n;

function isDone({ times, total }) {
    return times.length >= least && total >= enough;
}

function timed(way) {
    const begin = process.hrtime.bigint();
    way.size = way.call().length;
    const took = process.hrtime.bigint() - begin;
    way.times.push(took);
    way.total += took;
}

// The engine compiles what is called often anew, so the first calls are not timed.
ways.forEach(({ call }) => { for (let count = 0; count < 20; count++) call(); });
while (!ways.every(isDone)) {
    ways.filter((way) => !isDone(way)).forEach(timed);
}
for (const { name, size, times } of ways) {
    times.sort((one, other) => Number(one - other));
    console.log(name, size, String(times[0]), String(times[times.length >> 1]), times.length, 0);
}
