import type { Bytes, Font } from './fontcut.js';

/** A slice: its name, and its characters as a `unicode-range`, which `subset` and `cuts` take as `unicodes`. */
export interface Slice {
    name: string;
    unicodes: string;
}

/**
 * The slices of a font that have a character, by names that `fontcut-web slice` knows: the subsets of Google Fonts
 * ('latin', .., or 'web' for all of them), scripts ('arabic', 'devanagari', ..), 'chinese-simplified',
 * 'chinese-traditional', 'japanese' and 'korean' by the use of their characters, of which each may be followed by
 * ':few-bytes' or ':few-files'; 'auto'; and 'equal:COUNT'. `order` is a text whose characters come first in slices by
 * use. A character is only in the first slice that names it.
 *
 * @throws RangeError for a name that is not known, or that two slices have
 */
export function slices(font: Bytes | Font, names: Iterable<string>, options?: { order?: string }): Promise<Slice[]>;
