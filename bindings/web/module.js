// The modules of WebAssembly of this package: each is compiled once, and its calls get what they read by its memory.

import { DONE, FontcutError, NO_GLYPH, NO_MEMORY, NO_NUMBERS, NOTHING_TO_JOIN, OF_NUMBERS, OF_TAGS, SMALL_ROOM,
    TOO_LARGE } from './kinds.js';

const BYTES_OF_ANSWER = 24, LONGEST_TEXT = 64;

async function readOfNode(url) {
    const { readFile } = await import(/* webpackIgnore: true */ /* @vite-ignore */ 'node:fs/promises');
    return readFile(new URL(url));
}

async function compiled(source) {
    if (source instanceof WebAssembly.Module) {
        return source;
    }
    if (ArrayBuffer.isView(source) || source instanceof ArrayBuffer) {
        return WebAssembly.compile(source);
    }
    if (String(source).startsWith('file:') && globalThis.process?.versions?.node) {
        return WebAssembly.compile(await readOfNode(source));
    }
    const isAnswer = typeof Response === 'function' && source instanceof Response;
    const answer = isAnswer ? source : await fetch(source);
    if (!answer.ok) {
        throw new Error(`fontcut: ${answer.url} answers ${answer.status}`);
    }
    // A browser compiles while the bytes arrive only if the server names their type.
    const isTyped = (answer.headers.get('content-type') ?? '').startsWith('application/wasm');
    return isTyped ? WebAssembly.compileStreaming(answer) : WebAssembly.compile(await answer.arrayBuffer());
}

/** A module: what is compiled, the calls of its one instance, and the limit of its memory as a 64-bit number. */
export class Module {
    #advice;
    #compiled;
    #instance;
    #most = 2n ** 64n - 1n;

    /** `advice` says what to await before its calls. */
    constructor(advice) {
        this.#advice = advice;
    }

    get isLoaded() {
        return this.#compiled !== undefined;
    }

    get calls() {
        if (!this.isLoaded) {
            throw new Error(`fontcut: ${this.#advice}`);
        }
        if (!this.#instance) {
            this.#instance = new WebAssembly.Instance(this.#compiled, {}).exports;
            this.#instance.fontcut_limit(this.#most);
        }
        return this.#instance;
    }

    /** Compiles it, once of what lies at the address that a call returns if there is no source, and returns it. */
    async load(source, addressOf) {
        if (source !== undefined || !this.isLoaded) {
            const made = await compiled(await (source ?? addressOf()));
            // Of calls at the same time with no source the first one's module stays, so that no instance is lost.
            if (source !== undefined || !this.isLoaded) {
                this.#compiled = made;
                this.release();
            }
        }
        return this.calls && this.#compiled;
    }

    /** Whether an instance is the one whose calls are made now. */
    has(instance) {
        return this.#instance !== undefined && this.#instance === instance;
    }

    release() {
        this.#instance = undefined;
    }

    limit(bytes) {
        this.#most = BigInt.asUintN(64, BigInt(bytes));
        this.#instance?.fontcut_limit(this.#most);
    }

    /** How many bytes of memory its instance has, and how many of them are in use. */
    memory() {
        const { memory, fontcut_in_use: inUse } = this.#instance ?? {};
        return { bytes: memory?.buffer.byteLength ?? 0, inUse: Number(inUse?.() ?? 0) };
    }
}

/** The bytes of an ArrayBuffer or a view of one. */
export function bytesOf(data) {
    if (data instanceof ArrayBuffer) {
        return new Uint8Array(data);
    }
    if (!ArrayBuffer.isView(data)) {
        throw new TypeError('fontcut: a font is an ArrayBuffer or a view of one');
    }
    return new Uint8Array(data.buffer, data.byteOffset, data.byteLength);
}

/** The four characters of a tag, which C has as a number. */
export const tagOf = (number) => String.fromCharCode(number >>> 24, number >> 16 & 255, number >> 8 & 255, number & 255);

function argumentOf({ status, detail, size }) {
    if (OF_TAGS.includes(status)) {
        return tagOf(detail);
    }
    return OF_NUMBERS.includes(status) ? detail : status === TOO_LARGE ? size : undefined;
}

/** The areas in the memory of a module of one call of this package. `leave` frees them. */
export class Areas {
    #module;
    #calls;
    #held = [];
    #answer;

    constructor(module) {
        this.#module = module;
        this.#calls = module.calls;
        this.#answer = this.room(BYTES_OF_ANSWER);
    }

    // The address of so many new bytes. Views are made anew after each, for a memory that grows detaches those before.
    room(length) {
        const at = this.#calls.fontcut_alloc(BigInt(Math.max(1, length)));
        if (at === 0n) {
            throw new FontcutError(NO_MEMORY, 'no memory');
        }
        this.#held.push(at);
        return at;
    }

    // A copy of bytes, as the address and the length that a call takes.
    copy(bytes) {
        const at = this.room(bytes.length);
        this.bytes(at, bytes.length).set(bytes);
        return [at, BigInt(bytes.length)];
    }

    // The numbers of a list, as the address and the count of items that a call takes.
    numbers(Kind, list, each = 1) {
        const at = this.room(list.length * Kind.BYTES_PER_ELEMENT);
        new Kind(this.#calls.memory.buffer, Number(at), list.length).set(list);
        return [at, BigInt(list.length / each)];
    }

    bytes(at, length) {
        return new Uint8Array(this.#calls.memory.buffer, Number(at), length);
    }

    view(at, length) {
        return new DataView(this.#calls.memory.buffer, Number(at), length);
    }

    // What a call of the module answers. If it traps, its memory may be half written, and is used no more.
    answer(name, ...given) {
        try {
            this.#calls[`fontcut_${name}`](this.#answer, ...given);
        } catch (error) {
            this.#held = [];
            if (this.#module.has(this.#calls)) {
                this.#module.release();
            }
            throw error;
        }
        const said = this.view(this.#answer, BYTES_OF_ANSWER);
        return {
            status: said.getUint32(0, true), detail: said.getUint32(4, true),
            size: Number(said.getBigUint64(8, true)), step: Number(said.getBigUint64(16, true)),
        };
    }

    // The answer of a call that is done; otherwise throws what it says. Of several files it says which one.
    done(answer, isOfSeveral = false) {
        const { status, detail, step } = answer;
        if (status === DONE) {
            return answer;
        }
        if (status === NO_MEMORY) {
            throw new FontcutError(status, 'no memory');
        }
        const texts = { [NO_GLYPH]: `no such glyph at ${detail}`, [NO_NUMBERS]: 'no glyphs by number in full cuts' };
        const text = texts[status] ?? this.#textOfLast();
        const file = isOfSeveral && status !== NOTHING_TO_JOIN ? step : undefined;
        throw new FontcutError(status, text, argumentOf(answer), file);
    }

    #textOfLast() {
        const again = this.room(BYTES_OF_ANSWER), text = this.room(LONGEST_TEXT);
        this.bytes(again, BYTES_OF_ANSWER).set(this.bytes(this.#answer, BYTES_OF_ANSWER));
        const { size } = this.done(this.answer('refusal_text', again, text, BigInt(LONGEST_TEXT)));
        return new TextDecoder().decode(this.bytes(text, size));
    }

    // What a call writes into room for so many items, or for as many as it then says that it needs.
    written(items, bytesOfItem, make, isOfSeveral = false) {
        let room = this.room(items * bytesOfItem), answer = make(room, BigInt(items));
        if (answer.status === SMALL_ROOM) {
            this.#calls.fontcut_free(this.#held.pop());
            room = this.room(answer.size * bytesOfItem);
            answer = make(room, BigInt(answer.size));
        }
        const { size } = this.done(answer, isOfSeveral);
        return this.bytes(room, size * bytesOfItem).slice();
    }

    // What some work makes with the areas, which are freed then.
    within(work) {
        try {
            return work(this);
        } finally {
            this.leave();
        }
    }

    leave() {
        for (const at of this.#held.reverse()) {
            this.#calls.fontcut_free(at);
        }
    }
}
