#!/usr/bin/env node
// The commands of the program that node has, with its words, its bytes and its exit statuses.
import { randomBytes } from 'node:crypto';
import { chmodSync, closeSync, existsSync, lstatSync, mkdirSync, openSync, readFileSync, readlinkSync, realpathSync,
    renameSync, rmSync, statSync, writeFileSync, writeSync } from 'node:fs';
import { basename, dirname, join as pathOf, resolve } from 'node:path';
import { parseArgs } from 'node:util';
import { belongs, check, codes, cuts, cutForm, Font, FontcutError, glyphs, init, initTexts, join, metrics, needed,
    ranges, subset, variants, version } from './fontcut.js';
import { linesOfJoin } from './joined.js';
import { KINDS, LAYOUT_TABLES, NO_GLYPH, NO_MEMORY, SHAPED, charactersOf, codesIn, isSelector, kindWhere, rangeWord,
    shared } from './kinds.js';
import { formatOf, lossesOf, recordsOf } from './losses.js';
import { slices } from './slices.js';
import { woff2 } from './woff2.js';

const HELP = `fontcut in node: subsets that keep glyph ids, and their joins

  fontcut subset FONT OUT [--lean | --layout | --variable] [--text TEXT] [--text-file FILE] [--unicodes LIST]
                          [--codes-file FILE] [--gids LIST] [--exactly] [--no-layout-closure] [--force] [WORDS..]
  fontcut slice FONT FOLDER --slices SLICES [--lean | --layout | --variable] [--css FAMILY] [--woff2] [--strict]
                            [--force]
  fontcut join [--lean | --layout | --variable] [--force] -o OUT FILES..
  fontcut belongs CUT FONT [--full | --lean | --layout | --variable]
  fontcut check FONT
  fontcut codes FONT [--glyphs]

Arguments are those of the program; its manual page lists more. FONT and OUT may be -, for standard input and output.
An OUT that ends in .woff2 is a WOFF2 file, and with --woff2 slices are too, beside those that join. SLICES are a file
with a name and ranges in each line, or a preset, as web or japanese; those of no character of the font are not written.
--quiet stands anywhere: of messages only the first line is printed, and what a cut lacks or drops is not said. check
prints no findings here, only whether the font is accepted.

Exit status: 0 done; 1 a font is refused, belongs says no, or out of memory; 2 usage error; 3 a file cannot be read or
written.
`;
// How a page of HTML begins.
const HTML = /^\s*(?:<!--[^]*?-->\s*)*<(?:!doctype html|html|head|body)\b/i;
const FLAG = { type: 'boolean' }, LIST = { type: 'string', multiple: true };
const KIND_FLAGS = { lean: FLAG, layout: FLAG, variable: FLAG };
// Options of the program that no command has here.
const OF_PROGRAM = ['verbose', 'complete', 'exclude', 'exclude-file', 'gids-file', 'report', 'strict', 'drop',
    'sequences', 'help'];
const COMMANDS = {
    subset: {
        run: runSubset, options: {
            ...KIND_FLAGS, text: LIST, 'text-file': LIST, unicodes: LIST, 'codes-file': LIST, gids: LIST, exactly: FLAG,
            'no-layout-closure': FLAG, force: FLAG, quiet: FLAG,
        },
    },
    slice: {
        run: runSlice, options: {
            ...KIND_FLAGS, slices: LIST, css: { type: 'string' }, woff2: FLAG, strict: FLAG, force: FLAG, quiet: FLAG,
        },
    },
    join: {
        run: runJoin, options: { ...KIND_FLAGS, output: { type: 'string', short: 'o' }, force: FLAG, quiet: FLAG },
    },
    belongs: { run: runBelongs, options: { ...KIND_FLAGS, full: FLAG, quiet: FLAG } },
    check: { run: runCheck, options: { quiet: FLAG } },
    codes: { run: runCodes, options: { glyphs: FLAG, quiet: FLAG } },
};

// What ends the command: a line for standard error, and the exit status.
class Failed extends Error {
    constructor(status, text, front = 'fontcut') {
        super(text);
        this.status = status;
        this.front = front;
    }
}

const reasonOf = (error) => ({ ENOENT: 'No such file or directory', EISDIR: 'Is a directory',
    EACCES: 'Permission denied', EPIPE: 'Broken pipe',
    ENOSPC: 'No space left on device' })[error.code] ?? error.message;

function read(path) {
    try {
        return readFileSync(path === '-' ? 0 : path);
    } catch (error) {
        throw new Failed(3, `${path}: ${reasonOf(error)}`);
    }
}

// The file that a path leads to by links. It need not exist.
function placeOf(path) {
    const isLink = lstatSync(path, { throwIfNoEntry: false })?.isSymbolicLink();
    return isLink ? placeOf(resolve(dirname(path), readlinkSync(path))) : path;
}

// Replaces a file when all of its bytes are written. Devices, pipes and folders stay what they are.
function write(path, data) {
    try {
        // Throws if links lead back to themselves.
        const stats = path === '-' ? undefined : statSync(path, { throwIfNoEntry: false });
        if (path === '-' || stats && !stats.isFile()) {
            writeAll(path === '-' ? 1 : openSync(path, 'w'), data);
            return;
        }
        const isThere = stats !== undefined, place = placeOf(path);
        const made = pathOf(dirname(place), `.fontcut-${randomBytes(6).toString('hex')}`);
        try {
            writeFileSync(made, data, { flag: 'wx' });
            if (isThere) {
                chmodSync(made, statSync(place).mode);
            }
            renameSync(made, place);
        } catch (error) {
            rmSync(made, { force: true });
            throw error;
        }
    } catch (error) {
        throw new Failed(3, `${path === '-' ? 'standard output' : path}: ${reasonOf(error)}`);
    }
}

function writeAll(file, data) {
    for (let at = 0; at < data.length;) {
        at += writeSync(file, data, at);
    }
    if (file !== 1) {
        closeSync(file);
    }
}

const print = (text) => write('-', Buffer.from(text));

function kindOf(given) {
    const kinds = KINDS.filter((kind) => given[kind]);
    if (kinds.length > 1) {
        throw new Failed(2, `--${kinds[0]} and --${kinds[1]} are two kinds of cuts`);
    }
    return kinds[0] ?? 'full';
}

function text(data, path) {
    try {
        return new TextDecoder('utf-8', { fatal: true }).decode(data);
    } catch {
        throw new Failed(2, `${path}: not UTF-8`);
    }
}

const withoutControls = (one) => one.replace(/\p{Cc}/gu, '');

// The texts of a line, of which files keep no control characters.
function textsOf(given) {
    const files = (given['text-file'] ?? [])
        .map((path) => ({ option: path, text: text(read(path), path), isFile: true }));
    return [...(given.text ?? []).map((one) => ({ option: '--text', text: one })), ...files];
}

// The codes of texts. Each text by itself brings what a shaper takes for it. Control characters are taken out last: no
// characters compose across them.
function codesOfTexts(texts, brings) {
    const codesOf = ({ text, isFile }) => isFile && !withoutControls(text) ? ''
        : isFile ? withoutControls(brings(text)) : brings(text);
    return texts.flatMap((one) => charactersOf(codesOf(one)));
}

// A word of a list for a variation sequence, a character and its selector.
const SEQUENCE = /(?<![^\s,;])U\+([0-9A-F]{1,6})\+([0-9A-F]{1,6})(?![^\s,;#])/gi;

// The sequences of a list, as texts, and its ranges, among which their characters are. A word of no sequence is bad.
function namedBy(list) {
    const sequences = [];
    const plain = list.replace(/#[^\n]*/g, '').replace(SEQUENCE, (word, ...named) => {
        const [code, selector] = named.slice(0, 2).map((one) => Number.parseInt(one, 16));
        if (code > 0x10FFFF || !isSelector(selector)) {
            return word;
        }
        // A surrogate is no character of a text.
        sequences.push(...code >> 11 === 0x1B ? [] : [String.fromCodePoint(code, selector)]);
        return `U+${named[0]}`;
    });
    return { ranges: ranges(plain), sequences };
}

// The glyphs of sequences and of those of texts, each by itself, in cuts that keep sequences.
function drawnIn(font, kind, texts, sequences) {
    const all = SHAPED.includes(kind) ? [...texts, ...sequences.length ? [sequences.join('')] : []] : [];
    return all.flatMap((one) => [...variants(font, one)]);
}

// Those of some sequences that a font lacks.
function lackingOf(data, sequences) {
    const font = sequences.length ? new Font(data) : undefined;
    return [...new Set(sequences)].filter((one) => !variants(font, one).length);
}

// The lists of codes of a line, each with its ranges, its sequences and with what names it.
function listsOf(given, words) {
    const known = /^(all|everything|U\+[0-9A-F]{1,6}((-(U\+)?|\+)[0-9A-F]{1,6})?)$/i;
    const bad = words.find((word) => !known.test(word));
    if (bad !== undefined) {
        throw new Failed(2, `bad word ${bad}: write U+41, U+41-5A or all, and texts with --text`);
    }
    const files = (given['codes-file'] ?? []).map((path) => [path, text(read(path), path)]);
    // Only in a file can a line have the columns of `codes --glyphs`, which have blanks between them.
    const lists = (given.unicodes ?? []).map((list) => ['--unicodes', list.replaceAll(' ', ',')]);
    const every = [...words.map((word) => ['', word === 'everything' ? 'all' : word]), ...lists, ...files];
    return every.map(([option, list]) => ({ option, ...namedBy(list) }));
}

// Glyph numbers of lists, such as 5,7-9,0x1F.
function gidsOf(lists) {
    return lists.join(' ').split(/[\s,;]+/).filter(Boolean).flatMap((word) => {
        const [, first, last = first] = /^(0x[0-9a-f]+|\d+)(?:-(0x[0-9a-f]+|\d+))?$/i.exec(word) ?? [];
        const [from, to] = [Number(first), Number(last)];
        if (!(from <= to && to <= 0xFFFF)) {
            throw new Failed(2, `bad glyph number ${word}`);
        }
        return Array.from({ length: to - from + 1 }, (_, i) => from + i);
    });
}

function runSubset(given, [font, out, ...words]) {
    if (font === undefined || out === undefined) {
        throw new Failed(2, 'subset takes FONT and OUT');
    }
    const isNamed = words.length || ['text', 'text-file', 'unicodes', 'codes-file', 'gids'].some((name) => given[name]);
    if (!isNamed) {
        throw new Failed(2, 'name characters: --text TEXT, --unicodes LIST or words such as U+41-5A');
    }
    checkName(given, out);
    const kind = kindOf(given), isAll = words.includes('everything');
    if (kind === 'full' && (isAll || given.gids)) {
        throw new Failed(2, 'glyphs by their numbers are for --lean, --layout and --variable');
    }
    const texts = textsOf(given), lists = listsOf(given, words), listed = lists.flatMap((one) => one.ranges);
    const own = codesOfTexts(texts, (one) => one);
    const added = SHAPED.includes(kind) && !given.exactly ? codesOfTexts(texts, needed) : [];
    const unicodes = [...own, ...added, ...listed], gids = isAll ? 'all' : gidsOf(given.gids ?? []);
    const data = read(font);
    if (standsApart(given, out, [font])) {
        keepFont(given, out, font, data, `subset ${out} OUT cuts the font`);
    } else {
        keepItself(given, out, font, data);
    }
    const sequences = SHAPED.includes(kind) ? lists.flatMap((one) => one.sequences) : [];
    const drawn = () => drawnIn(data, kind, texts.map((one) => one.text), sequences);
    writeFont(out, refusing(given, font, data, () => cutOf(data,
        { unicodes, gids: isAll ? gids : [...gids, ...drawn()], kind, layoutClosure: !given['no-layout-closure'] })));
    if (!given.quiet) {
        const asked = { wanted: pairsOf(unicodes), named: pairsOf([...own, ...listed]), texts: pairsOf(own),
            hasGlyphs: isAll || Boolean(given.gids),
            lacking: lackingOf(data, sequences) };
        const paths = (given.text ?? []).filter((one) => one !== '-' && isFile(one)).map((path) =>
            `${shownName(path)} is a file: --text keeps the characters of its path, --text-file those in it`);
        const none = !SHAPED.includes(kind) && lists.some((one) => one.sequences.length)
            ? ['full and lean cuts have no variation sequences: add --layout'] : [];
        const pages = texts.filter((one) => one.isFile && HTML.test(one.text)).map((one) =>
            `${shownName(one.option)} is HTML, whose tags and scripts are kept as text: fontcut-web text keeps what it `
            + 'draws');
        say([...emptyOf(given, texts, lists), ...none, ...paths, ...pages,
            ...lossesOf(shownName(font), data, kind, asked)]);
    }
}

const pairsOf = (codes) => codes.map((code) => typeof code === 'number' ? [code, code] : code);

const say = (lines) => process.stderr.write(lines.map((line) => `fontcut: ${line}\n`).join(''));

// What messages call a file that is read, with its control characters as numbers.
const shownName = (path) => path === '-' ? 'standard input'
    : path.replace(/\p{Cc}/gu, (sign) => `\\x${sign.codePointAt(0).toString(16).padStart(2, '0')}`);

// What is said of options and files that name nothing, as where a variable of a shell is empty.
function* emptyOf(given, texts, lists) {
    const empty = [...texts.filter((one) => !(one.isFile ? withoutControls(one.text) : one.text)),
        ...lists.filter((one) => !one.ranges.length)].map((one) => one.option);
    const isOption = (option) => option.startsWith('--');
    yield* empty.filter(isOption).map((option) => `${option} is empty: it names no character`);
    for (const list of given.gids ?? []) {
        if (!gidsOf([list]).length) {
            yield '--gids is empty: it names no glyph';
        }
    }
    yield* empty.filter((option) => !isOption(option)).map((path) => `${shownName(path)} names no character`);
}

// Runs work with the font at a path. Of one that is refused it is said what the file is.
function refusing(given, path, data, work) {
    try {
        return work();
    } catch (error) {
        if (!(error instanceof FontcutError) || error.number === NO_MEMORY || given.quiet) {
            throw error;
        }
        const what = path === '-' ? undefined : formatOf(data, error.text);
        const name = shownName(path), more = what ? `${name}: ${what}` : `${name} is refused`;
        throw new Failed(1, `refused ${error.number} ${error.text}\nfontcut: ${more}`);
    }
}

const writeFont = (out, data) => write(out, /\.woff2$/i.test(out) ? woff2(data) : data);

// The slices of a file: in each line a name and ranges, and sequences. Each has the ranges of characters that the font
// maps, and those that are listed.
function slicesOfFile(path, font) {
    const mapped = codes(font), lines = text(read(path), path).replace(/^\uFEFF/, '').split('\n');
    return lines.flatMap((line, i) => {
        const [, name, list] = /^\s*(\S*)\s*(.*?)\s*$/.exec(line.replace(/#.*/, ''));
        if (name && !/^[A-Za-z0-9][A-Za-z0-9._-]*$/.test(name)) {
            throw new Failed(2, `${path}: line ${i + 1}: bad name ${name.slice(0, 40)}`);
        }
        const { ranges: listed, sequences } = namedBy(name ? list : '');
        const unicodes = shared(mapped, listed).map((range) => rangeWord(range, 'U+')).join(', ');
        return name ? [{ name, unicodes, listed, sequences }] : [];
    });
}

// A text as a string of CSS.
const stringOf = (one) => `"${one.replace(/["\\]/g, '\\$&').replace(/\p{Cc}/gu, (sign) =>
    `\\${sign.codePointAt(0).toString(16)} `)}"`;

function ruleOf(family, file, unicodes) {
    const format = file.endsWith('.woff2') ? 'woff2' : 'truetype';
    const lines = [`font-family: ${stringOf(family)}`, `src: url("${file}") format("${format}")`,
        `unicode-range: ${unicodes}`];
    return `@font-face {\n${lines.map((line) => `  ${line};\n`).join('')}}\n`;
}

// The slices that a line names. Raises an error for two of one name, which would be one file.
async function slicesOf(given, font) {
    const named = await Promise.all((given.slices ?? []).map((one) =>
        existsSync(one) ? slicesOfFile(one, font) : slices(font, [one])));
    const found = named.flat(), names = found.map((one) => one.name.toLowerCase());
    const twice = names.findIndex((name, i) => names.indexOf(name) < i);
    if (twice >= 0) {
        throw new Failed(2, `two slices have the name ${found[twice].name}`);
    }
    return found;
}

// How many slices are named of which a font maps nothing.
const MOST_NAMED = 8;

async function runSlice(given, [path, folder, ...more]) {
    if (folder === undefined || !given.slices || more.length) {
        throw new Failed(2, 'slice takes FONT, FOLDER and --slices SLICES');
    }
    const kind = kindOf(given), font = read(path);
    refusing(given, path, font, () => check(font));
    const every = await slicesOf(given, font), wanted = every.filter((one) => one.unicodes);
    const lacking = every.filter((one) => !one.unicodes), unnamed = lacking.length - MOST_NAMED;
    const said = lacking.slice(0, MOST_NAMED).map((one) => `slice ${one.name}: the font maps none of its characters`);
    said.push(...unnamed > 0 ? [`other slices of which the font maps nothing: ${unnamed}`] : []);
    if (given.strict && said.length) {
        throw new Failed(1, `nothing was written: ${said.join('; ')}`);
    }
    mkdirSync(folder, { recursive: true });
    const outs = wanted.map((one) => pathOf(folder, `${one.name}.ttf`));
    for (const out of outs.filter((one) => standsApart(given, one, []))) {
        if (!isCut(standing(out))) {
            throw new Failed(2, `${out} is a file already, and no cut: --force replaces it`);
        }
    }
    const made = refusing(given, path, font, () => {
        const sets = wanted.map(({ unicodes, sequences = [] }) =>
            ({ unicodes, gids: drawnIn(font, kind, [], sequences) }));
        return cuts(font, sets, { kind, quiet: true });
    });
    wanted.forEach((one, i) => {
        write(outs[i], made[i]);
        const packed = outs[i].replace(/ttf$/, 'woff2');
        if (given.woff2) {
            write(packed, woff2(made[i]));
        }
        if (given.css !== undefined) {
            print(ruleOf(given.css, basename(given.woff2 ? packed : outs[i]), one.unicodes));
        }
    });
    if (!given.quiet) {
        const codesOfAll = wanted.flatMap((one) => one.listed ?? ranges(one.unicodes));
        const asked = { wanted: codesOfAll, named: codesOfAll, texts: [], hasGlyphs: true };
        const none = every.length ? [] : given.slices.map((one) => `${shownName(one)} names no slice`);
        say([...said, ...none, ...lossesOf(shownName(path), font, kind, asked)]);
    }
}

const isCut = (data) => kindWhere((kind) => cutForm(data, { kind }) !== 'none') !== undefined;

const isFile = (path) => path !== '-' && existsSync(path) && statSync(path).isFile();

// Whether a file stands at OUT that a line neither reads nor is forced to replace.
function standsApart(given, out, files) {
    const isOut = (file) => isFile(file) && realpathSync(file) === realpathSync(out);
    return !given.force && isFile(out) && !files.some(isOut);
}

// A font as if it lacked the layout tables that a cut lacks, which may be one without them.
function withTablesOf(font, cut) {
    const made = Buffer.from(font), kept = recordsOf(cut);
    for (const [tag, at] of recordsOf(font)) {
        made.write(LAYOUT_TABLES.includes(tag) && !kept.has(tag) ? '    ' : tag, at, 'latin1');
    }
    return made;
}

// What stands at a path, or undefined if it cannot be read.
function standing(path) {
    try {
        return readFileSync(path);
    } catch {
        return undefined;
    }
}

// Fails if OUT has the font of which the file at a path is a cut: the names of files were exchanged.
function keepFont(given, out, path, data, advice) {
    const stands = isCut(data) ? standing(out) : undefined;
    if (!stands || isCut(stands)) {
        return;
    }
    const font = withTablesOf(stands, data);
    if (kindWhere((kind) => belongs(data, font, { kind }))) {
        const cut = path === '-' ? 'standard input' : path;
        const more = given.quiet ? '' : `\nfontcut: ${advice}; --force replaces ${out}`;
        throw new Failed(2, `${out} is the font, and ${cut} a cut of it: nothing was written${more}`);
    }
}

// A cut. A glyph that the font does not have is named by its number, and not by its place in the list.
function cutOf(font, wanted) {
    try {
        return subset(font, { ...wanted, quiet: true });
    } catch (error) {
        const isGlyph = error instanceof FontcutError && error.number === NO_GLYPH;
        throw isGlyph ? new Failed(1, `refused ${NO_GLYPH} no glyph ${wanted.gids[error.argument]}`) : error;
    }
}

// A name of a file that would be packed is probably a mistake.
function checkName(given, out) {
    if (/\.woff$/i.test(out) && !given.force) {
        throw new Failed(2, `${out}: the output is a TrueType file, or WOFF2 by its name: --force writes it there`);
    }
}

// Fails if a cut would replace its font.
function keepItself(given, out, font, data) {
    const isSame = isFile(font) && isFile(out) && realpathSync(font) === realpathSync(out);
    if (given.force || !isSame || isCut(data)) {
        return;
    }
    const more = given.quiet ? '' : `\nfontcut: name another OUT; --force replaces ${font}`;
    throw new Failed(2, `${font} is the font, and its cut would replace it: nothing was written${more}`);
}

function runJoin(given, words) {
    const [out, ...files] = given.output === undefined ? words : [given.output, ...words];
    if (out === undefined || !files.length) {
        throw new Failed(2, 'join takes OUT and FILES');
    }
    if (given.output === undefined && files.length === 1 && files[0] !== out && existsSync(out)) {
        throw new Failed(2, `${out} would be replaced by one file: write join -o ${out} ${files[0]}`);
    }
    checkName(given, out);
    const kind = kindOf(given), parts = files.map(read);
    const first = files.findIndex(isFile);
    if (first >= 0 && standsApart(given, out, files)) {
        keepFont(given, out, files[first], parts[first], 'name another OUT');
    }
    writeFont(out, joinOf(given, kind, files, parts));
}

// The join of files. Of those that are not joined it is said of which kinds they are.
function joinOf(given, kind, paths, files) {
    try {
        return join(files, { kind });
    } catch (error) {
        if (!(error instanceof FontcutError) || error.number === NO_MEMORY || given.quiet) {
            throw error;
        }
        const [, line] = told(error);
        throw new Failed(1, [line, ...linesOfJoin(kind, paths.map(shownName), files, error)].join('\nfontcut: '));
    }
}

function runBelongs(given, words) {
    if (words.length !== 2) {
        throw new Failed(2, 'belongs takes CUT and FONT');
    }
    const [cut, font] = words.map(read), named = KINDS.some((kind) => given[kind]) ? kindOf(given) : undefined;
    let found = belongs(cut, font, { kind: named ?? 'full' }) ? named ?? 'full' : undefined;
    if (!named) {
        found ??= kindWhere((kind) => belongs(cut, font, { kind }), Object.keys(KIND_FLAGS));
    }
    if (found && !named && !given.quiet) {
        process.stderr.write(`fontcut: ${words[0]}: a ${found} cut\n`);
    }
    print(found ? 'yes\n' : 'no\n');
    return found ? 0 : 1;
}

function runCheck(_, words) {
    if (words.length !== 1) {
        throw new Failed(2, 'check takes FONT');
    }
    try {
        check(read(words[0]));
    } catch (error) {
        if (!(error instanceof FontcutError)) {
            throw error;
        }
        print(`refused ${error.number} ${error.text}\n`);
        return 1;
    }
    print('accepted\n');
    return 0;
}

function runCodes(given, words) {
    if (words.length !== 1) {
        throw new Failed(2, 'codes takes FONT');
    }
    const font = read(words[0]), pairs = refusing(given, words[0], font, () => codes(font));
    if (!given.glyphs) {
        print(pairs.map((pair) => `${rangeWord(pair, 'U+')}\n`).join(''));
        return;
    }
    const all = codesIn(pairs);
    const numbers = glyphs(font, all), widths = metrics(font, numbers);
    print(all.map((code, i) => `${rangeWord([code, code], 'U+')} ${numbers[i]} ${widths[i].advance}\n`).join(''));
}

// How alike two words are, from 0 to 1, by the letters that both have in about the same order (Jaro).
function likeness(one, other) {
    const reach = Math.max(0, Math.floor(Math.max(one.length, other.length) / 2) - 1), taken = new Set();
    const common = [...one].filter((letter, i) => {
        const at = [...other].findIndex((its, j) => its === letter && Math.abs(i - j) <= reach && !taken.has(j));
        return at >= 0 && taken.add(at);
    });
    const theirs = [...other].filter((_, j) => taken.has(j)), count = common.length;
    const moved = common.filter((letter, i) => letter !== theirs[i]).length / 2;
    return count ? (count / one.length + count / other.length + (count - moved) / count) / 3 : 0;
}

// Fails at an option that the program does not have either, with the words of the program. One that only node lacks is
// said otherwise, when the words are read.
function checkOptions(words, options) {
    const end = words.indexOf('--'), given = end < 0 ? words : words.slice(0, end);
    for (const [, name] of given.map((word) => /^--([^=]+)/.exec(word)).filter(Boolean)) {
        if (!Object.hasOwn(options, name) && !OF_PROGRAM.includes(name)) {
            const [best] = Object.keys(options).filter((one) => one.startsWith(name.slice(0, 3)))
                .sort((one, other) => likeness(name, other) - likeness(name, one));
            const tip = best && likeness(name, best) > 0.7 ? `  tip: a similar argument exists: '--${best}'\n\n` : '';
            throw new Failed(2, `unexpected argument '--${name}' found\n\n${tip}For more information, try '--help'.`,
                'error');
        }
    }
}

// The arguments with the command first: as in the program, --quiet may stand before it.
function commandFirst(words) {
    const at = words.findIndex((word) => word !== '--quiet');
    return at > 0 ? [words[at], ...words.slice(0, at), ...words.slice(at + 1)] : words;
}

// The exit status of a line, after what it says.
async function statusOf(line) {
    const [name, ...words] = commandFirst(line);
    if (name === undefined || ['--help', '-h', 'help'].includes(name)) {
        print(HELP);
        return 0;
    }
    await Promise.all([init(), initTexts()]);
    if (['--version', '-V'].includes(name)) {
        print(`fontcut ${version()}\n`);
        return 0;
    }
    if (name.startsWith('-')) {
        throw new Failed(2, `no option ${name} before a command in node: fontcut --help lists those that it has`);
    }
    if (!Object.hasOwn(COMMANDS, name)) {
        throw new Failed(2, `no command ${name}: node has ${Object.keys(COMMANDS).join(', ')}`);
    }
    if (words.includes('--help') || words.includes('-h')) {
        print(HELP);
        return 0;
    }
    const { run, options } = COMMANDS[name];
    checkOptions(words, options);
    const { values, positionals } = parseArgs({ args: words, options, allowPositionals: true });
    return run(values, positionals) ?? 0;
}

// What is said of an error, and the exit status for it.
function told(error) {
    if (error instanceof FontcutError) {
        const file = error.file === undefined ? '' : `file ${error.file + 1}: `;
        return [1, `${file}refused ${error.number} ${error.text}`];
    }
    if (error instanceof Failed) {
        return [error.status, error.message];
    }
    const isOfWords = error instanceof RangeError || String(error.code).startsWith('ERR_PARSE_ARGS');
    if (!isOfWords) {
        throw error;
    }
    const [, option] = /^Unknown option '([^']+)'/.exec(error.message) ?? [];
    return [2, option ? `no option ${option} in node: fontcut --help lists those that it has`
        : error.message.replace(/^fontcut: /, '')];
}

try {
    process.exitCode = await statusOf(process.argv.slice(2));
} catch (error) {
    const [status, line] = told(error);
    process.stderr.write(`${error.front ?? 'fontcut'}: ${line}\n`);
    process.exitCode = status;
}
