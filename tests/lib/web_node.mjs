// Compares the package with the native library in node: node web_node.mjs PACKAGE FOLDER
import { readFile } from 'node:fs/promises';
import { webcrypto } from 'node:crypto';
import { pathToFileURL } from 'node:url';
import { compare } from './web_compare.mjs';

globalThis.crypto ??= webcrypto;
const [place, folder] = process.argv.slice(2);
const fontcut = await import(pathToFileURL(`${place}/fontcut.js`));
await Promise.all([fontcut.init(), fontcut.initTexts()]);
// Nothing is said of what cuts drop.
console.warn = () => {};
const cases = JSON.parse(await readFile(`${folder}/cases.json`, 'utf8'));
console.log(JSON.stringify(await compare(fontcut, cases, (name) => readFile(`${folder}/${name}`))));
