/* Fonts in memory that are changed at random, with knowledge of their tables: a table's bytes, a field, an offset, a
 * record, the mapping, metrics, what GSUB, gvar and variation sequences are read by, the directory, or the end of the
 * file. What is chosen is decided by `state`, which a program sets for each case. */
#ifndef FONT_CHANGES_H
#define FONT_CHANGES_H

#include <stdint.h>
#include <stdio.h>
#include <stdlib.h>
#include <string.h>

enum { CHANGES = 17, TAG = 4, LAYOUT_TABLES = 5, ADDED_TABLES = 13 };
/* The tables of layout, and then those of variations. */
static const char added_tags[ADDED_TABLES][TAG + 1] = {"BASE", "GDEF", "GPOS", "GSUB", "kern", "HVAR", "MVAR",
                                                       "STAT", "VVAR", "avar", "cvar", "fvar", "gvar"};

typedef struct bytes {
    uint8_t *at;
    size_t length;
} bytes;

static uint64_t state;

/* The next number of a sequence that `state` decides (splitmix64). */
static uint64_t chance(uint64_t below)
{
    uint64_t z = state += 0x9E3779B97F4A7C15u;
    z = (z ^ (z >> 30)) * 0xBF58476D1CE4E5B9u;
    z = (z ^ (z >> 27)) * 0x94D049BB133111EBu;
    z ^= z >> 31;
    return below ? z % below : 0;
}

static void *room_of(size_t size)
{
    void *at = malloc(size ? size : 1);
    if (!at) {
        fprintf(stderr, "no memory for a font\n");
        exit(3);
    }
    return at;
}

static bytes copied(bytes file)
{
    bytes made = {room_of(file.length), file.length};
    memcpy(made.at, file.at, file.length);
    return made;
}

/* --- Numbers and tables of a font file ------------------------------------------------------------------------ */

static uint32_t number_at(bytes file, size_t at, unsigned width)
{
    uint32_t number = 0;
    for (unsigned i = 0; i < width; i++)
        number = number << 8 | (at + i < file.length ? file.at[at + i] : 0);
    return number;
}

static void put_number(bytes file, size_t at, unsigned width, uint32_t number)
{
    for (unsigned i = 0; i < width; i++)
        if (at + i < file.length)
            file.at[at + i] = (uint8_t)(number >> 8 * (width - 1 - i));
}

/* How many records of tables there are, of those that lie in the file. */
static size_t table_count(bytes file)
{
    size_t count = number_at(file, 4, 2), most = file.length < 12 ? 0 : (file.length - 12) / 16;
    return count < most ? count : most;
}

static size_t record_of(size_t index)
{
    return 12 + 16 * index;
}

static int has_tag(bytes file, size_t record, const char *tag)
{
    return memcmp(file.at + record, tag, TAG) == 0;
}

/* The place and length of a table, of which the record is the one of this tag, or of no bytes where there is none. */
static size_t table_at(bytes file, const char *tag, size_t *length)
{
    for (size_t i = 0; i < table_count(file); i++)
        if (has_tag(file, record_of(i), tag)) {
            size_t offset = number_at(file, record_of(i) + 8, 4);
            *length = number_at(file, record_of(i) + 12, 4);
            if (offset <= file.length && *length <= file.length - offset)
                return offset;
        }
    *length = 0;
    return 0;
}

static size_t tables_of(bytes file, const char *tag)
{
    size_t found = 0;
    for (size_t i = 0; i < table_count(file); i++)
        found += has_tag(file, record_of(i), tag);
    return found;
}

/* Whether a record is that of one of the first of these tables. */
static int is_added(bytes file, size_t record, size_t tables)
{
    for (size_t i = 0; i < tables; i++)
        if (has_tag(file, record, added_tags[i]))
            return 1;
    return 0;
}

/* A copy of a file without the table of a tag, or without the first of the tables of layout and of variations where
 * there is no tag: their records get tags that no cut has. */
static bytes without_table(bytes file, const char *tag, size_t tables)
{
    bytes made = copied(file);
    for (size_t i = 0; i < table_count(made); i++)
        if (tag ? has_tag(made, record_of(i), tag) : is_added(made, record_of(i), tables))
            made.at[record_of(i)] ^= 0x80;
    return made;
}

/* How many bytes an entry of `loca` has, and how many entries there are. */
static unsigned loca_width(bytes file, size_t *loca, size_t *entries)
{
    size_t length, head = table_at(file, "head", &length);
    unsigned width = length >= 52 && number_at(file, head + 50, 2) ? 4 : 2;
    *loca = table_at(file, "loca", &length);
    *entries = length / width;
    return width;
}

/* The place and length of a glyph's outline in a font that is accepted. */
static size_t outline_at(bytes file, uint32_t glyph, size_t *length)
{
    size_t loca, entries, glyf_length;
    unsigned width = loca_width(file, &loca, &entries), unit = width == 2 ? 2 : 1;
    size_t first = number_at(file, loca + width * (size_t)glyph, width) * (size_t)unit;
    *length = number_at(file, loca + width * ((size_t)glyph + 1), width) * (size_t)unit - first;
    return table_at(file, "glyf", &glyf_length) + first;
}

/* The place and length of the variation data of a glyph in a font whose `gvar` is read, or of no bytes where there is
 * no such table. */
static size_t data_at(bytes file, uint32_t glyph, size_t *length)
{
    size_t gvar_length, gvar = table_at(file, "gvar", &gvar_length);
    *length = 0;
    if (gvar_length == 0)
        return 0;
    unsigned width = number_at(file, gvar + 14, 2) ? 4 : 2, unit = width == 2 ? 2 : 1;
    size_t first = number_at(file, gvar + 20 + width * (size_t)glyph, width) * (size_t)unit;
    *length = number_at(file, gvar + 20 + width * ((size_t)glyph + 1), width) * (size_t)unit - first;
    return gvar + number_at(file, gvar + 16, 4) + first;
}

/* The place of the next encoding record 0/5 (variation sequences) of `cmap` that is not before another one, or 0. */
static size_t sequence_record(bytes file, size_t from)
{
    size_t length, cmap = table_at(file, "cmap", &length), count = length >= 4 ? number_at(file, cmap + 2, 2) : 0;
    for (size_t i = 0; i < count && 12 + 8 * i <= length; i++)
        if (cmap + 4 + 8 * i >= from && number_at(file, cmap + 4 + 8 * i, 4) == 5)
            return cmap + 4 + 8 * i;
    return 0;
}

/* The place of the first subtable of variation sequences, and how many bytes of `cmap` there are from there on; none
 * where its header is not all there. */
static size_t sequences_at(bytes file, size_t *length)
{
    size_t record = sequence_record(file, 0), cmap = table_at(file, "cmap", length);
    size_t offset = record ? number_at(file, record + 4, 4) : *length;
    *length = offset + 10 <= *length ? *length - offset : 0;
    return cmap + offset;
}

/* Gives the encoding records of variation sequences an encoding that no reader knows. */
static void hide_sequences(bytes file)
{
    for (size_t record = sequence_record(file, 0); record; record = sequence_record(file, record))
        file.at[record + 2] ^= 0x80;
}

/* --- Changes ---------------------------------------------------------------------------------------------------- */

/* A number near another one, or one of those at which rules change. */
static uint32_t near(uint32_t number)
{
    static const uint32_t edges[] = {0, 1, 2, 0x7FFF, 0x8000, 0xFFFF, 0x10000, 0x7FFFFFFF, 0xFFFFFFFF};
    switch (chance(4)) {
    case 0: return number + 1;
    case 1: return number - 1;
    case 2: return (uint32_t)chance(0x100000000u);
    default: return edges[chance(sizeof edges / sizeof *edges)];
    }
}

/* Changes a few bytes of one table. */
static void change_bytes(bytes file)
{
    size_t record = record_of(chance(table_count(file)));
    size_t offset = number_at(file, record + 8, 4), length = number_at(file, record + 12, 4);
    for (uint64_t left = 1 + chance(4); left && length; left--) {
        size_t at = offset + chance(length);
        if (at < file.length)
            file.at[at] = (uint8_t)chance(256);
    }
}

/* Changes a field that other tables depend on. */
static void change_field(bytes file)
{
    static const struct {
        const char *tag;
        unsigned at, width;
    } fields[] = {{"head", 0, 4},  {"head", 12, 4}, {"head", 18, 2}, {"head", 50, 2}, {"hhea", 34, 2}, {"maxp", 0, 4},
                  {"maxp", 4, 2},  {"post", 0, 4},  {"vhea", 34, 2}, {"vhea", 0, 4},  {"cmap", 2, 2},  {"cmap", 4, 4},
                  {"cmap", 8, 4},  {"cmap", 12, 4}, {"OS/2", 0, 2},  {"hhea", 0, 4}};
    size_t which = chance(sizeof fields / sizeof *fields), length;
    size_t at = table_at(file, fields[which].tag, &length) + fields[which].at;
    if (length >= fields[which].at + fields[which].width)
        put_number(file, at, fields[which].width, near(number_at(file, at, fields[which].width)));
}

/* Makes a glyph empty, longer or shorter, or its offset a bad one. */
static void change_offset(bytes file)
{
    size_t loca, entries;
    unsigned width = loca_width(file, &loca, &entries);
    if (entries < 3)
        return;
    size_t glyph = 1 + chance(entries - 2), at = loca + width * glyph;
    uint32_t before = number_at(file, at - width, width), after = number_at(file, at + width, width);
    uint32_t offset = number_at(file, at, width);
    uint32_t others[] = {before, after, before + (after - before) / 2, offset + 2, offset + 1, near(offset)};
    put_number(file, at, width, others[chance(sizeof others / sizeof *others)]);
}

/* Changes the first bytes of a glyph's record: its number of contours, its bounds, a flag or a component's glyph. */
static void change_record(bytes file)
{
    size_t loca, entries, length, glyf = table_at(file, "glyf", &length);
    unsigned width = loca_width(file, &loca, &entries);
    if (entries < 2 || length < 2)
        return;
    size_t place = number_at(file, loca + width * chance(entries - 1), width) * (width == 2 ? 2 : 1);
    static const size_t parts[] = {0, 2, 10, 12, 14, 16, 18};
    size_t at = place + parts[chance(sizeof parts / sizeof *parts)];
    if (at + 2 > length)
        return;
    static const uint32_t values[] = {0xFFFF, 0, 1, 0x20, 0x8, 0x40, 0x80, 0x22};
    put_number(file, glyf + at, 2, chance(2) ? values[chance(8)] : (uint32_t)chance(0x200));
}

/* Changes a 16-bit number of the mapping, one time in four: a font whose groups are out of order then takes hundreds of
 * times as long as another one, and would be most of what is done. */
static void change_mapping(bytes file)
{
    size_t length, cmap = table_at(file, "cmap", &length);
    if (length >= 8 && !chance(4)) {
        size_t at = cmap + 2 * chance(length / 2);
        put_number(file, at, 2, near(number_at(file, at, 2)));
    }
}

/* Changes a number of the metrics. */
static void change_metrics(bytes file)
{
    size_t length, at = table_at(file, chance(2) ? "hmtx" : "vmtx", &length);
    if (length >= 2)
        put_number(file, at + 2 * chance(length / 2), 2, (uint32_t)chance(0x10000));
}

/* Changes a number by which GSUB is read: of its header, of a lookup, of a subtable, or of its Coverage, a set or a
 * list of glyphs. */
static void change_links(bytes file)
{
    size_t length, gsub = table_at(file, "GSUB", &length);
    if (length < 12)
        return;
    size_t list = gsub + number_at(file, gsub + 8, 2), slot = list + 2 + 2 * chance(number_at(file, list, 2));
    size_t lookup = list + number_at(file, slot, 2), part = lookup + 6 + 2 * chance(number_at(file, lookup + 4, 2));
    size_t subtable = lookup + number_at(file, part, 2), coverage = subtable + number_at(file, subtable + 2, 2);
    size_t entry = subtable + 4 + 2 * chance(4), set = subtable + number_at(file, entry, 2);
    size_t places[] = {gsub,     gsub + 2,     gsub + 8, list, slot, lookup, lookup + 4, part,
                       subtable, subtable + 2, entry,    set,  set + 2 + 2 * chance(4),
                       coverage, coverage + 2, coverage + 4 + 2 * chance(4)};
    size_t at = places[chance(sizeof places / sizeof *places)];
    put_number(file, at, 2, chance(2) ? near(number_at(file, at, 2)) : (uint32_t)chance(12));
}

/* Changes the header of a table of layout: its version, which says whether it has an offset to what varies, or an
 * offset. */
static void change_header(bytes file)
{
    size_t length, at = table_at(file, added_tags[chance(LAYOUT_TABLES)], &length);
    size_t numbers = length / 2 < 10 ? length / 2 : 10;
    if (numbers)
        put_number(file, at + 2 * chance(numbers), 2, (uint32_t)chance(chance(2) ? 4 : 0x10000));
}

/* Changes a number by which `gvar` is read: a field of its header, an offset, or the number of axes in `fvar`. */
static void change_variations(bytes file)
{
    static const struct {
        unsigned at, width;
    } fields[] = {{0, 2}, {2, 2}, {4, 2}, {6, 2}, {8, 4}, {12, 2}, {14, 2}, {16, 4}};
    size_t length, axes, gvar = table_at(file, "gvar", &length), fvar = table_at(file, "fvar", &axes);
    size_t which = chance(sizeof fields / sizeof *fields + 4);
    if (which == 0 && axes >= 10) {
        put_number(file, fvar + 8, 2, near(number_at(file, fvar + 8, 2)));
    } else if (length >= 20 && which < sizeof fields / sizeof *fields) {
        size_t at = gvar + fields[which].at;
        put_number(file, at, fields[which].width, near(number_at(file, at, fields[which].width)));
    } else if (length >= 24) {
        unsigned width = number_at(file, gvar + 14, 2) ? 4 : 2;
        size_t at = gvar + 20 + width * chance(number_at(file, gvar + 12, 2) + 1);
        if (at + width <= gvar + length)
            put_number(file, at, width, number_at(file, at, width) + (uint32_t)chance(9) - 4);
    }
}

/* Changes a number by which variation sequences are read: of the header, of the record of a selector, of a list or of
 * an item of it. */
static void change_sequences(bytes file)
{
    size_t length, table = sequences_at(file, &length);
    if (length == 0)
        return;
    unsigned is_mapping = chance(2);
    size_t record = table + 10 + 11 * chance(number_at(file, table + 6, 4));
    size_t list = table + number_at(file, record + (is_mapping ? 7 : 3), 4);
    size_t item = list + 4 + (4 + is_mapping) * chance(number_at(file, list, 4));
    const struct {
        size_t at;
        unsigned width;
    } places[] = {{table, 2},      {table + 2, 4},  {table + 6, 4}, {record, 3}, {record + 3, 4},
                  {record + 7, 4}, {list, 4},       {item, 3},      {item, 3},   {item + 3, 1 + is_mapping}};
    size_t which = chance(sizeof places / sizeof *places);
    uint32_t number = number_at(file, places[which].at, places[which].width);
    put_number(file, places[which].at, places[which].width, chance(2) ? near(number) : (uint32_t)chance(0x60));
}

/* Gives a table of layout or of variations the tag of another one, which may then stand twice. */
static void change_tag(bytes file)
{
    size_t count = table_count(file), first = chance(count);
    for (size_t i = 0; i < count; i++) {
        size_t record = record_of((first + i) % count);
        if (is_added(file, record, ADDED_TABLES)) {
            memcpy(file.at + record, added_tags[chance(ADDED_TABLES)], TAG);
            return;
        }
    }
}

/* Changes one number of a table's record, or gives a table another tag. */
static void change_record_of_table(bytes file)
{
    size_t at = record_of(chance(table_count(file))) + 4 * chance(4);
    put_number(file, at, 4, near(number_at(file, at, 4)));
}

/* A copy of a file with one change, or none. */
static bytes changed(bytes file)
{
    static void (*const changes[CHANGES])(bytes) = {
        NULL,           NULL,         change_bytes, change_field,      change_offset,     change_record, change_mapping,
        change_metrics, change_links, change_links, change_variations, change_variations, change_header, change_tag,
        change_record_of_table, change_sequences, change_sequences};
    bytes made = copied(file);
    uint64_t which = chance(CHANGES + 1);
    if (which == CHANGES)
        made.length = chance(8) ? made.length - chance(made.length < 64 ? made.length : 64) : chance(made.length);
    else if (changes[which] && made.length >= 28)
        changes[which](made);
    return made;
}

#endif
