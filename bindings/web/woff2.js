// Fonts as WOFF2 files, in node (WOFF File Format 2.0). Its Brotli is that of the library zlib there.
import { brotliCompressSync, constants } from 'node:zlib';

// The tags that have a number (4.1, Table Directory Format).
const KNOWN = `cmap head hhea hmtx maxp name OS/2 post cvt fpgm glyf loca prep CFF VORG EBDT EBLC gasp hdmx kern LTSH
    PCLT VDMX vhea vmtx BASE GDEF GPOS GSUB EBSC JSTF MATH CBDT CBLC COLR CPAL SVG sbix acnt avar bdat bloc bsln cvar
    fdsc feat fmtx fvar gvar hsty just lcar mort morx opbd prop trak Zapf Silf Glat Gloc Feat Sill`
    .split(/\s+/).map((tag) => tag.padEnd(4));
const OTHER = 63;
// The version of the transformation that leaves outlines as they are. For other tables 0 is that.
const PLAIN = 3 << 6;
// How many times its own length a file may unpack to: browsers refuse one that unpacks to more, as that of a few glyphs
// of a large font does.
const MOST_RATIO = 100;

// A number in groups of seven bits, of which the last is marked by its first bit (UIntBase128).
function base128(number) {
    const found = [number & 0x7F];
    for (let left = number >>> 7; left; left >>>= 7) {
        found.unshift(left & 0x7F | 0x80);
    }
    return Buffer.from(found);
}

// The tables of a font that is accepted: `loca` stands after `glyf`, as the standard has it.
function tablesOf(font) {
    const tables = Array.from({ length: font.readUInt16BE(4) }, (_, i) => {
        const at = 12 + 16 * i, start = font.readUInt32BE(at + 8);
        const data = font.subarray(start, start + font.readUInt32BE(at + 12));
        return { tag: font.toString('latin1', at, at + 4), data };
    });
    const rank = ({ tag }) => tag === 'loca' ? 'glyf ' : tag;
    return tables.sort((one, other) => rank(one) < rank(other) ? -1 : 1);
}

function entryOf({ tag, data }) {
    const known = KNOWN.indexOf(tag), isOutlines = tag === 'glyf' || tag === 'loca';
    const flags = Buffer.from([(known < 0 ? OTHER : known) | (isOutlines ? PLAIN : 0)]);
    return Buffer.concat([flags, Buffer.from(known < 0 ? tag : '', 'latin1'), base128(data.length)]);
}

/**
 * A font that is accepted as a WOFF2 file, whose tables are packed as they are.
 */
export function woff2(bytes) {
    const font = Buffer.from(bytes.buffer, bytes.byteOffset, bytes.byteLength), tables = tablesOf(font);
    const directory = Buffer.concat(tables.map(entryOf)), data = Buffer.concat(tables.map((table) => table.data));
    const packed = brotliCompressSync(data, { params: {
        [constants.BROTLI_PARAM_MODE]: constants.BROTLI_MODE_FONT, [constants.BROTLI_PARAM_QUALITY]: 11,
        [constants.BROTLI_PARAM_LGWIN]: 22, [constants.BROTLI_PARAM_SIZE_HINT]: data.length,
    } });
    const header = Buffer.alloc(48), end = header.length + directory.length + packed.length, own = end + (-end & 3);
    const length = Math.max(own, Math.ceil(data.length / MOST_RATIO) + 3 & ~3);
    const whole = tables.reduce((sum, { data: { length: size } }) => sum + size + (-size & 3), 12 + 16 * tables.length);
    header.write('wOF2', 'latin1');
    font.copy(header, 4, 0, 4);
    header.writeUInt32BE(length, 8);
    header.writeUInt16BE(tables.length, 12);
    header.writeUInt32BE(whole, 16);
    header.writeUInt32BE(packed.length, 20);
    header.writeUInt16BE(1, 24);
    if (length > own) {
        // Private data, so that it is long enough.
        header.writeUInt32BE(own, 40);
        header.writeUInt32BE(length - own, 44);
    }
    return Buffer.concat([header, directory, packed], length);
}
