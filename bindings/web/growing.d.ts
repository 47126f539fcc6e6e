import type { Kind } from './fontcut.js';

export interface GrowingOptions {
    /** 'lean' by default. One of the kind 'layout' or 'variable' grows by all that a text needs, and its sequences. */
    kind?: Kind;
    /** Those of FontFace: weight, style and the like. A variable font has ranges in them: `{ weight: '100 900' }`. */
    descriptors?: FontFaceDescriptors;
}

/** A font of a page that grows with its text. Of right answers it is the cut for all characters so far. */
export class GrowingFont {
    constructor(family: string, url: string | URL, options?: GrowingOptions);
    /** The bytes of the font as it is now, or undefined before the first text. */
    readonly bytes: Uint8Array | undefined;
    /**
     * Resolves when the font has what the text needs.
     * @throws FontcutError if what the server sends is no cut, or a cut of another font; Error if a fetch fails
     */
    add(text: string): Promise<void>;
}
