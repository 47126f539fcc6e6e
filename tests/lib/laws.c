/* Asks each law of cuts and joins of the library, over fonts that are changed with knowledge of their tables:
 *
 *     laws COUNT SEED FONT..
 *
 * Each of COUNT cases takes one of the fonts, changes it or leaves it as it is, and asks of all kinds of cuts, for
 * codes alone or for codes and numbers of glyphs: what a file is refused with, every call refuses it with; an answer
 * given twice is the same; the size that is told is that of the cut; a room that is too small stays as it was; a cut
 * is a cut, in today's form, and of its font; joins of cuts are the cut for the union of their sets, in any order
 * and grouping and with any of them twice; the cut of a cut is the cut of the font; a join of files that nobody cut
 * is refused with the first reason that there is, or has both as its cuts and lies in each font that has both; and
 * layout and variable cuts have the variation sequences of the glyphs that they keep, and other cuts none.
 * Between kinds: a lean cut is that of each other cut of the font; without tables of layout and variation sequences a
 * layout cut is the lean one, and without tables of variations too a variable cut is; where nothing is cleared in the tables of layout, a
 * layout cut is that of the variable cut. Of closures: a cut for codes is the cut for these and for what links lead
 * to. A case that breaks a law is printed, with the law and the font. The last lines count the cases, the laws that
 * held of each kind, and those that did not. */
#include "fontcut.h"
#include "files.h"
#include "font_changes.h"

#include <inttypes.h>

enum { GUARD = 64, FILL = 0xA5, SETS = 3, RANGES = 8, NUMBERS = 12, KINDS = 4, ALL_NUMBERS = 65536 };
/* The selectors that small fonts have, as texts, how many characters before them, from which on, and how many pairs
 * are looked at in a cut. */
enum { SELECTORS = 3, BASES = 28, FIRST_BASE = 0x3E, PAIRS = 6 };
static const char *const selectors[SELECTORS] = {"\xEF\xB8\x80", "\xEF\xB8\x81", "\xF3\xA0\x84\x80"};
static const char *const kind_names[KINDS] = {"full", "lean", "layout", "variable"};
static const fontcut_range every_code = {0, 0x10FFFF};
static const fontcut_answer done = {FONTCUT_DONE, 0, 0, 0};

/* Ranges of codes, and numbers of glyphs where it is exact: then no links are followed. */
typedef struct set {
    fontcut_range ranges[SETS * RANGES];
    size_t count;
    int is_exact;
    uint16_t glyphs[SETS * NUMBERS];
    size_t glyph_count;
} set;

typedef struct font {
    const char *path;
    bytes file;
    fontcut_range *codes;
    size_t code_ranges;
} font;

typedef struct counts {
    uint64_t held[KINDS], broken, accepted, refused, refused_of[KINDS], linked, varied, sequenced, joined, differing;
} counts;

static counts seen;
static uint64_t trial;
static const char *trial_font;

static void holds(int is_so, fontcut_kind kind, const char *law)
{
    seen.held[kind] += is_so != 0;
    seen.broken += is_so == 0;
    if (!is_so)
        printf("case %" PRIu64 ", %s, %s cuts: %s\n", trial, trial_font, kind_names[kind], law);
}

static int same_answer(fontcut_answer a, fontcut_answer b)
{
    return a.status == b.status && a.detail == b.detail && a.size == b.size && a.step == b.step;
}

static int same_bytes(bytes a, bytes b)
{
    return a.at && b.at && a.length == b.length && memcmp(a.at, b.at, a.length) == 0;
}

static int is_filled(const uint8_t *at, size_t length)
{
    for (size_t i = 0; i < length; i++)
        if (at[i] != FILL)
            return 0;
    return 1;
}

/* --- Sets ------------------------------------------------------------------------------------------------------- */

/* Some ranges of codes, most of them near those that the font maps. */
static set some_set(const font *of)
{
    set made = {.count = chance(RANGES)};
    for (size_t i = 0; i < made.count; i++) {
        fontcut_range about = of->code_ranges ? of->codes[chance(of->code_ranges)] : every_code;
        uint32_t first = about.first + (uint32_t)chance(about.last - about.first + 1);
        uint32_t last = first + (uint32_t)chance(chance(4) ? 3 : 200);
        made.ranges[i] = (fontcut_range){first, last > 0x10FFFF ? 0x10FFFF : last};
    }
    if (!chance(16))
        made = (set){.ranges = {every_code}, .count = 1};
    return made;
}

/* The same set with some numbers of a file, which is accepted. */
static set with_numbers(set made, bytes of)
{
    fontcut_font_info info;
    made.is_exact = fontcut_info(of.at, of.length, &info).status == FONTCUT_DONE;
    made.glyph_count = made.is_exact ? chance(NUMBERS) : 0;
    for (size_t i = 0; i < made.glyph_count; i++)
        made.glyphs[i] = (uint16_t)chance(info.glyph_count);
    return made;
}

/* What is wanted for cuts of a kind: full cuts are for codes alone. */
static set wanted_for(fontcut_kind kind, set made)
{
    if (kind == FONTCUT_FULL)
        made.is_exact = 0;
    return made;
}

static set both(set a, set b)
{
    memcpy(a.ranges + a.count, b.ranges, b.count * sizeof *b.ranges);
    memcpy(a.glyphs + a.glyph_count, b.glyphs, b.glyph_count * sizeof *b.glyphs);
    a.count += b.count;
    a.glyph_count += b.glyph_count;
    return a;
}

/* --- Calls ------------------------------------------------------------------------------------------------------ */

/* Room of some bytes between guards, all of it filled. */
static uint8_t *guarded(size_t room)
{
    uint8_t *at = room_of(room + 2 * GUARD);
    memset(at, FILL, room + 2 * GUARD);
    return at + GUARD;
}

/* Frees such room, if there is one. */
static void let_go(uint8_t *at)
{
    if (at)
        free(at - GUARD);
}

/* The request for a set. */
static fontcut_request request_for(fontcut_kind kind, const set *wanted)
{
    return (fontcut_request){sizeof(fontcut_request), kind, wanted->is_exact ? 0 : FONTCUT_CLOSES, wanted->ranges,
                             wanted->count, wanted->glyphs, wanted->glyph_count};
}

/* The call for a cut for a set. */
static fontcut_answer cut_into(fontcut_kind kind, bytes of, const set *wanted, uint8_t *out, size_t room)
{
    fontcut_request request = request_for(kind, wanted);
    return fontcut_subset(&request, of.at, of.length, out, room);
}

/* The cut of a file for a set; the laws of one cut are asked meanwhile. There are no bytes where it is refused. */
static bytes cut_of(fontcut_kind kind, bytes of, set asked)
{
    set wanted = wanted_for(kind, asked);
    fontcut_answer size = cut_into(kind, of, &wanted, NULL, 0);
    bytes made = {guarded(size.size), size.size};
    fontcut_answer cut = cut_into(kind, of, &wanted, made.at, made.length);
    if (size.status == FONTCUT_SMALL_ROOM)
        size.status = FONTCUT_DONE;
    holds(same_answer(size, cut), kind, "the size that is told is that of the cut");
    holds(is_filled(made.at - GUARD, GUARD) && is_filled(made.at + made.length, GUARD), kind,
          "nothing is written outside a room");
    if (cut.status != FONTCUT_DONE) {
        let_go(made.at);
        return (bytes){NULL, 0};
    }
    bytes again = {guarded(made.length), made.length};
    fontcut_answer small = cut_into(kind, of, &wanted, again.at, made.length - 1);
    holds(small.status == FONTCUT_SMALL_ROOM && small.size == made.length && is_filled(again.at, made.length), kind,
          "a room that is too small stays as it was");
    cut_into(kind, of, &wanted, again.at, again.length);
    holds(same_bytes(made, again), kind, "the same cut is given twice");
    let_go(again.at);
    return made;
}

/* The join of files; there are no bytes where they are refused. */
static bytes join_of(fontcut_kind kind, const bytes *files, size_t count, fontcut_answer *answer)
{
    fontcut_bytes list[4];
    size_t room = 0;
    for (size_t i = 0; i < count; i++) {
        list[i] = (fontcut_bytes){files[i].at, files[i].length};
        room += files[i].length;
    }
    bytes made = {guarded(room), room};
    *answer = fontcut_join(kind, list, count, made.at, room);
    if (answer->status == FONTCUT_DONE)
        made.length = answer->size;
    holds(is_filled(made.at - GUARD, GUARD) && is_filled(made.at + room, GUARD), kind,
          "a join writes nothing outside a room");
    if (answer->status == FONTCUT_DONE)
        return made;
    holds(is_filled(made.at, room), kind, "a refused join leaves its room as it was");
    let_go(made.at);
    return (bytes){NULL, 0};
}

static void is_join(fontcut_kind kind, const bytes *files, size_t count, bytes wanted, const char *law)
{
    fontcut_answer answer;
    bytes made = join_of(kind, files, count, &answer);
    holds(same_bytes(made, wanted), kind, law);
    let_go(made.at);
}

static int is_cut_of(fontcut_kind kind, bytes cut, bytes of)
{
    fontcut_answer answer = fontcut_belongs(kind, cut.at, cut.length, of.at, of.length);
    return answer.status == FONTCUT_DONE && answer.detail == 1;
}

static int form_of(fontcut_kind kind, bytes file)
{
    fontcut_answer answer = fontcut_cut_form(kind, file.at, file.length);
    return answer.status == FONTCUT_DONE ? (int)answer.detail : FONTCUT_NO_CUT;
}

/* What a file is refused with for cuts of a kind: as a font, or else, for layout and variable cuts, for its tables of
 * layout and of variations. That GSUB cannot be read refuses calls that follow links alone. */
static fontcut_answer refusal_of(fontcut_kind kind, bytes file)
{
    fontcut_answer font = fontcut_check(file.at, file.length);
    if (kind < FONTCUT_LAYOUT || font.status != FONTCUT_DONE)
        return font;
    fontcut_answer form = fontcut_cut_form(kind, file.at, file.length);
    return form.status == FONTCUT_DONE ? done : form;
}

/* --- Laws of one kind ------------------------------------------------------------------------------------------- */

/* Whether links are followed in a file for cuts of a kind, and its GSUB cannot be read. */
static int has_bad_links(fontcut_kind kind, bytes file)
{
    const set nothing = {.count = 0};
    return cut_into(kind, file, &nothing, NULL, 0).status == FONTCUT_BAD_LAYOUT;
}

/* The glyph that an accepted file has for a text of one variation sequence, or 0. */
static uint16_t variant_in(bytes file, const char *text)
{
    uint16_t glyph = 0;
    fontcut_variants(FONTCUT_CHECKED, file.at, file.length, (const uint8_t *)text, strlen(text), &glyph, 1);
    return glyph;
}

/* The law of some variation sequences of a font, of which a cut is given. */
static void ask_sequences(fontcut_kind kind, bytes of, bytes made)
{
    size_t length;
    uint16_t *kept = room_of(ALL_NUMBERS * sizeof *kept);
    size_t count = fontcut_kept(kind, made.at, made.length, kept, ALL_NUMBERS).size;
    int is_so = 1;
    for (int left = sequence_record(of, 0) ? PAIRS : 1; left; left--) {
        char text[8] = {(char)(FIRST_BASE + chance(BASES))};
        strcat(text, selectors[chance(SELECTORS)]);
        uint16_t glyph = variant_in(of, text), wanted = 0;
        for (size_t i = 0; i < count && kind >= FONTCUT_LAYOUT; i++)
            wanted = kept[i] == glyph ? glyph : wanted;
        is_so = is_so && variant_in(made, text) == wanted;
    }
    holds(is_so, kind, "a cut has the variation sequences of the glyphs that it keeps, if it has any");
    sequences_at(made, &length);
    seen.sequenced += length > 0;
    free(kept);
}

/* The request for the codes of a set and for other glyphs, without links. */
static fontcut_request request_with(fontcut_kind kind, const set *wanted, const uint16_t *glyphs, size_t count)
{
    return (fontcut_request){sizeof(fontcut_request), kind, 0, wanted->ranges, wanted->count, glyphs, count};
}

/* The laws of the closure of a set in a font, whose cut for the codes is given, and of what that keeps. */
static void ask_closure(fontcut_kind kind, bytes of, set wanted, bytes made)
{
    uint16_t *closed = room_of(2 * ALL_NUMBERS * sizeof *closed), *again = closed + ALL_NUMBERS;
    fontcut_request request = request_with(kind, &wanted, NULL, 0);
    fontcut_answer first = fontcut_closure(&request, of.at, of.length, closed, ALL_NUMBERS);
    request = request_with(kind, &wanted, closed, first.size);
    fontcut_answer second = fontcut_closure(&request, of.at, of.length, again, ALL_NUMBERS);
    holds(first.status == FONTCUT_DONE && same_answer(first, second)
              && memcmp(closed, again, first.size * sizeof *closed) == 0, kind, "a closure is its own closure");
    bytes exact = {guarded(made.length), made.length};
    fontcut_subset(&request, of.at, of.length, exact.at, exact.length);
    holds(same_bytes(exact, made), kind, "a cut for codes is the cut for their closure");
    fontcut_answer kept = fontcut_kept(kind, made.at, made.length, again, ALL_NUMBERS);
    request = request_with(kind, &wanted, again, kept.size);
    fontcut_subset(&request, of.at, of.length, exact.at, exact.length);
    holds(kept.status == FONTCUT_DONE && same_bytes(exact, made), kind,
          "a cut is the cut for its codes and for the glyphs that it keeps");
    let_go(exact.at);
    free(closed);
}

/* The laws of cuts for three sets, none of which is too large, and of their joins. */
static void ask_joins(fontcut_kind kind, bytes of, const set *sets, const bytes *cuts)
{
    bytes two = cut_of(kind, of, both(sets[0], sets[1])), all = cut_of(kind, of, both(both(sets[0], sets[1]), sets[2]));
    is_join(kind, (bytes[]){cuts[0], cuts[1]}, 2, two, "the join of two cuts is the cut for both sets");
    is_join(kind, (bytes[]){cuts[1], cuts[0]}, 2, two, "in the other order too");
    is_join(kind, (bytes[]){cuts[0], cuts[1], cuts[0]}, 3, two, "and with one of them twice");
    is_join(kind, cuts, 3, all, "the join of three cuts is the cut for all sets");
    is_join(kind, (bytes[]){two, cuts[2]}, 2, all, "grouped from the front too");
    is_join(kind, (bytes[]){cuts[2], two}, 2, all, "and from the back");
    is_join(kind, (bytes[]){all, cuts[1]}, 2, all, "what is in a join already changes nothing");
    bytes again = cut_of(kind, all, sets[1]);
    holds(same_bytes(again, cuts[1]), kind, "the cut of a cut is the cut of the font");
    let_go(all.at);
    let_go(two.at);
    let_go(again.at);
}

/* The laws of an accepted font; its cuts for the sets are left to the caller, and are none where one is too large. */
static void ask_font(fontcut_kind kind, bytes of, const set *sets, bytes *cuts)
{
    int is_cut = 1;
    for (int i = 0; i < SETS; i++) {
        cuts[i] = cut_of(kind, of, sets[i]);
        is_cut = is_cut && cuts[i].at;
    }
    if (!is_cut)
        return;
    for (int i = 0; i < SETS; i++) {
        holds(refusal_of(kind, cuts[i]).status == FONTCUT_DONE, kind, "a cut is accepted");
        holds(form_of(kind, cuts[i]) == FONTCUT_CURRENT_CUT, kind, "a cut is a cut in today's form");
        holds(is_cut_of(kind, cuts[i], of), kind, "a cut is a cut of its font");
        ask_sequences(kind, of, cuts[i]);
    }
    if (kind != FONTCUT_FULL && !sets[0].is_exact)
        ask_closure(kind, of, sets[0], cuts[0]);
    ask_joins(kind, of, sets, cuts);
}

/* The first reason not to join two files that is of one of them alone: of the first one, or else of the second one. */
static fontcut_answer join_refusal(fontcut_kind kind, bytes x, bytes y)
{
    const bytes files[] = {x, y};
    for (uint64_t step = 0; step < 2; step++) {
        fontcut_answer refusal = refusal_of(kind, files[step]);
        if (refusal.status == FONTCUT_DONE && form_of(kind, files[step]) == FONTCUT_NO_CUT)
            refusal.status = FONTCUT_NOT_A_CUT;
        if (refusal.status != FONTCUT_DONE) {
            refusal.step = step;
            return refusal;
        }
    }
    return done;
}

static int is_difference(fontcut_answer answer)
{
    int differs = answer.status >= FONTCUT_DIFFERENT_TABLE && answer.status <= FONTCUT_DIFFERENT_GLYPH;
    return (differs || answer.status == FONTCUT_TABLE_TOO_LONG) && answer.step == 1;
}

/* Whether a table is in one of two files alone, or not the same in both. */
static int tables_differ(bytes x, bytes y, const char *tag)
{
    size_t lengths[2], in_x = table_at(x, tag, lengths), in_y = table_at(y, tag, lengths + 1);
    return tables_of(x, tag) != tables_of(y, tag) || lengths[0] != lengths[1]
        || memcmp(x.at + in_x, y.at + in_y, lengths[0]) != 0;
}

/* Whether two variable cuts have other variation data of a glyph. */
static int data_differ(bytes x, bytes y, uint16_t glyph)
{
    size_t lengths[2], in_x = data_at(x, glyph, lengths), in_y = data_at(y, glyph, lengths + 1);
    return lengths[0] != lengths[1] || memcmp(x.at + in_x, y.at + in_y, lengths[0]) != 0;
}

/* The variation sequences of a cut, each of which is a mapping: selector, code and glyph in one number. There is room
 * for all of them, which the caller frees. */
static uint64_t *sequences_of(bytes cut, size_t *count)
{
    size_t length, table = sequences_at(cut, &length), records = length ? number_at(cut, table + 6, 4) : 0;
    uint64_t *found = room_of(length / 5 * sizeof *found);
    *count = 0;
    for (size_t i = 0; i < records; i++) {
        size_t record = table + 10 + 11 * i, list = table + number_at(cut, record + 7, 4);
        uint64_t selector = number_at(cut, record, 3);
        for (size_t item = 0; item < number_at(cut, list, 4); item++) {
            size_t at = list + 4 + 5 * item;
            found[(*count)++] = selector << 40 | (uint64_t)number_at(cut, at, 3) << 16 | number_at(cut, at + 3, 2);
        }
    }
    return found;
}

/* How many of some sequences of a glyph others do not have. */
static size_t lacking(const uint64_t *some, size_t count, const uint64_t *others, size_t other_count, uint16_t glyph)
{
    size_t found = 0;
    for (size_t i = 0; i < count; i++) {
        size_t at = 0;
        while (at < other_count && others[at] != some[i])
            at++;
        found += (uint16_t)some[i] == glyph && at == other_count;
    }
    return found;
}

/* Whether two cuts have other variation sequences of a glyph, or where there is none a sequence with two glyphs. */
static int sequences_differ(bytes x, bytes y, uint16_t glyph)
{
    size_t counts[2], clashes = 0;
    uint64_t *in_x = sequences_of(x, counts), *in_y = sequences_of(y, counts + 1);
    for (size_t i = 0; i < counts[0]; i++)
        for (size_t k = 0; k < counts[1]; k++)
            clashes += in_x[i] >> 16 == in_y[k] >> 16 && in_x[i] != in_y[k];
    size_t differing = lacking(in_x, counts[0], in_y, counts[1], glyph)
                     + lacking(in_y, counts[1], in_x, counts[0], glyph);
    free(in_x);
    free(in_y);
    return (glyph ? differing : clashes) > 0;
}

/* Whether two fonts, which are accepted, have another outline of a glyph, or other metrics. */
static int glyphs_differ(bytes x, bytes y, uint16_t glyph)
{
    size_t lengths[2], in_x = outline_at(x, glyph, lengths), in_y = outline_at(y, glyph, lengths + 1);
    fontcut_metric metrics[2] = {{0, 0}, {0, 0}};
    fontcut_metrics(0, x.at, x.length, &glyph, 1, metrics, 1);
    fontcut_metrics(0, y.at, y.length, &glyph, 1, metrics + 1, 1);
    return lengths[0] != lengths[1] || memcmp(x.at + in_x, y.at + in_y, lengths[0]) != 0
        || memcmp(metrics, metrics + 1, sizeof *metrics) != 0 || tables_differ(x, y, "vmtx");
}

/* Whether two fonts, which are accepted, differ in what a refusal of their join names. What of the metrics belongs to
 * single glyphs, and is not compared with their table, goes by how many glyphs there are, which `maxp` says. */
static int do_differ(fontcut_kind kind, bytes x, bytes y, fontcut_answer refusal)
{
    uint32_t named = refusal.detail;
    if (refusal.status == FONTCUT_DIFFERENT_TABLE) {
        char tag[TAG + 1] = {(char)(named >> 24), (char)(named >> 16), (char)(named >> 8), (char)named, 0};
        return tables_differ(x, y, tag) || (memcmp(tag + 1, "mtx", 3) == 0 && tables_differ(x, y, "maxp"));
    }
    if (refusal.status == FONTCUT_TABLE_TOO_LONG)
        return named == 0x636D6170 /* cmap */ && kind >= FONTCUT_LAYOUT && sequences_differ(x, y, 0);
    if (refusal.status == FONTCUT_DIFFERENT_GLYPH)
        return glyphs_differ(x, y, (uint16_t)named)
            || (kind >= FONTCUT_LAYOUT && named && sequences_differ(x, y, (uint16_t)named))
            || (kind == FONTCUT_VARIABLE && data_differ(x, y, (uint16_t)named));
    uint16_t glyphs[2] = {0, 0};
    fontcut_glyphs(0, x.at, x.length, &named, 1, glyphs, 1);
    fontcut_glyphs(0, y.at, y.length, &named, 1, glyphs + 1, 1);
    return glyphs[0] && glyphs[1] && glyphs[0] != glyphs[1];
}

/* The laws of the join of two files, of which a font may have none, one or both as its cuts. */
static void ask_join(fontcut_kind kind, bytes x, bytes y, bytes join, bytes above)
{
    holds(form_of(kind, join) == FONTCUT_CURRENT_CUT, kind, "a join is a cut in today's form");
    holds(is_cut_of(kind, x, join) && is_cut_of(kind, y, join), kind, "both files are cuts of their join");
    is_join(kind, (bytes[]){join, x}, 2, join, "a join takes its own files in without a change");
    if (is_cut_of(kind, x, above) && is_cut_of(kind, y, above))
        holds(is_cut_of(kind, join, above), kind, "of a font that has both files as its cuts the join is one too");
}

/* The laws of the join of two files that may not be cuts of one font. */
static void ask_pair(fontcut_kind kind, bytes x, bytes y, bytes above)
{
    fontcut_answer there, back, alone = join_refusal(kind, x, y);
    bytes z = join_of(kind, (bytes[]){x, y}, 2, &there), w = join_of(kind, (bytes[]){y, x}, 2, &back);
    holds((z.at != NULL) == (w.at != NULL), kind, "files join in both orders or in none");
    seen.joined += z.at != NULL;
    seen.differing += is_difference(there);
    if (alone.status != FONTCUT_DONE)
        holds(same_answer(there, alone), kind, "files that are no cuts are refused with the first reason there is");
    else if (z.at && w.at) {
        holds(same_bytes(z, w), kind, "and give the same file");
        ask_join(kind, x, y, z, above);
    } else {
        holds(is_difference(there) && same_answer(there, back), kind,
              "cuts that differ are refused with the same difference in both orders");
        holds(do_differ(kind, x, y, there), kind, "and do differ in what is named");
    }
    let_go(z.at);
    let_go(w.at);
}

/* What a file is refused with where links are followed, each call that follows them refuses it with. */
static void ask_closing_refused(fontcut_kind kind, bytes file, set wanted, fontcut_answer refusal)
{
    uint8_t out[GUARD];
    uint16_t closed[GUARD];
    uint64_t size;
    memset(out, FILL, sizeof out);
    memset(closed, FILL, sizeof closed);
    memset(&size, FILL, sizeof size);
    wanted.is_exact = 0;
    wanted.glyph_count = 0;
    fontcut_request request = request_for(kind, &wanted);
    holds(same_answer(fontcut_subset(&request, file.at, file.length, out, GUARD), refusal)
              && same_answer(fontcut_subsets(&request, 1, file.at, file.length, out, GUARD, &size, 1), refusal)
              && same_answer(fontcut_closure(&request, file.at, file.length, closed, GUARD), refusal),
          kind, "each call that follows links refuses a file alike");
    holds(is_filled(out, GUARD) && is_filled((const uint8_t *)&size, sizeof size)
              && is_filled((const uint8_t *)closed, sizeof closed), kind, "a refusal leaves the room as it was");
}

/* What a file is refused with where no links are followed, each other call refuses it with. Where its GSUB cannot be
 * read, that is what those that follow links refuse it with; it comes before `gvar`. */
static void ask_refused(fontcut_kind kind, bytes file, set wanted, fontcut_answer refusal)
{
    uint8_t out[GUARD];
    memset(out, FILL, sizeof out);
    fontcut_bytes list = {file.at, file.length};
    const set nothing = {.is_exact = 1};
    holds(same_answer(cut_into(kind, file, &nothing, out, GUARD), refusal)
              && same_answer(fontcut_cut_form(kind, file.at, file.length), refusal)
              && same_answer(fontcut_belongs(kind, file.at, file.length, file.at, file.length), refusal)
              && same_answer(fontcut_join(kind, &list, 1, out, GUARD), refusal),
          kind, "each call refuses a file alike");
    holds(is_filled(out, GUARD), kind, "a refusal leaves the room as it was");
    if (has_bad_links(kind, file))
        refusal = (fontcut_answer){FONTCUT_BAD_LAYOUT, 0, 0, 0};
    ask_closing_refused(kind, file, wanted, refusal);
}

/* The laws of a changed cut, and of the cut for all codes of what came of the change, beside another cut. */
static void ask_hostile(fontcut_kind kind, bytes hostile, bytes other, bytes above)
{
    ask_pair(kind, hostile, other, above);
    if (refusal_of(kind, hostile).status != FONTCUT_DONE)
        return;
    holds(is_cut_of(kind, hostile, hostile) == (form_of(kind, hostile) != FONTCUT_NO_CUT), kind,
          "a cut belongs to itself, and no other file does");
    bytes recut = cut_of(kind, hostile, (set){.ranges = {every_code}, .count = 1});
    if (recut.at)
        ask_pair(kind, recut, other, above);
    let_go(recut.at);
}

/* The laws of a font, of another version of it, and of a changed cut of it. */
static void ask_all(fontcut_kind kind, bytes of, bytes version, const set *sets)
{
    bytes cuts[SETS], of_version = {NULL, 0};
    ask_font(kind, of, sets, cuts);
    if (refusal_of(kind, version).status == FONTCUT_DONE)
        of_version = cut_of(kind, version, sets[1]);
    if (cuts[0].at && of_version.at)
        ask_pair(kind, cuts[0], of_version, of);
    /* In layout and variable cuts there is more to change. */
    for (int left = kind >= FONTCUT_LAYOUT ? 2 : 1; cuts[0].at && left; left--) {
        bytes hostile = changed(cuts[0]);
        ask_hostile(kind, hostile, of_version.at ? of_version : cuts[0], of);
        free(hostile.at);
    }
    for (int i = 0; i < SETS; i++)
        let_go(cuts[i].at);
    let_go(of_version.at);
}

/* --- Laws between kinds ----------------------------------------------------------------------------------------- */

/* The laws of a cut of another kind beside the lean cut for the same set. */
static void ask_beside_lean(fontcut_kind kind, bytes cut, bytes lean)
{
    bytes again = cut_of(FONTCUT_LEAN, cut, (set){.ranges = {every_code}, .count = 1});
    holds(lean.length <= cut.length, kind, "a lean cut is no longer than the cut");
    holds(same_bytes(again, lean), kind, "the lean cut of a cut is the lean cut of the font");
    /* A full cut without names of glyphs is a lean one too, of all glyphs that have metrics. */
    int is_lean = form_of(FONTCUT_LEAN, cut) == FONTCUT_CURRENT_CUT, is_same = same_bytes(cut, lean);
    holds(kind == FONTCUT_FULL ? is_lean || !is_same : is_lean == is_same, kind,
          "a cut is a lean one where it is the font's alone");
    let_go(again.at);
}

/* The law of a cut for codes and numbers beside the lean cut for the same ones. */
static void ask_exact_beside_lean(fontcut_kind kind, bytes of, set wanted)
{
    bytes lean = cut_of(FONTCUT_LEAN, of, wanted), made = cut_of(kind, of, wanted);
    if (lean.at && made.at) {
        bytes again = cut_of(FONTCUT_LEAN, made, wanted);
        holds(same_bytes(again, lean), kind, "the lean cut of an exact cut is the lean cut of the font");
        ask_pair(kind, made, lean, of);
        let_go(again.at);
    }
    let_go(lean.at);
    let_go(made.at);
}

/* The law of a font without what cuts of a kind keep and lean cuts do not: without the first of the tables of layout
 * and of variations, and without variation sequences. It may be refused where another table lies over the directory. */
static void ask_bare(fontcut_kind kind, bytes of, set wanted, size_t tables)
{
    bytes bare = without_table(of, NULL, tables);
    hide_sequences(bare);
    bytes lean = cut_of(FONTCUT_LEAN, bare, wanted), made = cut_of(kind, bare, wanted);
    holds(lean.at ? same_bytes(lean, made) : !made.at, kind,
          "without what it keeps beside what a lean cut keeps a cut is the lean one");
    let_go(lean.at);
    let_go(made.at);
    free(bare.at);
}

/* The laws of a layout or variable cut beside the lean cut for the same set, where there is one. */
static void ask_shaped(fontcut_kind kind, bytes made, bytes lean, bytes of)
{
    size_t kept, linked;
    if (!made.at)
        return;
    table_at(made, "glyf", &linked);
    table_at(lean, "glyf", &kept);
    seen.linked += linked > kept;
    ask_beside_lean(kind, made, lean);
    holds((form_of(FONTCUT_FULL, made) == FONTCUT_CURRENT_CUT) == same_bytes(made, lean), kind,
          "it is a full cut where it is a lean one alone");
    ask_pair(kind, made, lean, of);
    ask_pair(FONTCUT_LEAN, lean, made, of);
}

/* How many of the first tables of layout and of variations a layout cut does not have as its font has them: tables of
 * layout where what varies is cleared in them, and tables of variations. */
static size_t changed_tables(bytes layout, bytes of, size_t tables)
{
    size_t found = 0;
    for (size_t i = 0; i < tables; i++)
        found += tables_differ(layout, of, added_tags[i]);
    return found;
}

/* The laws of a variable cut beside the layout cut for the same set. */
static void ask_variable(bytes variable, bytes layout, bytes of)
{
    size_t length;
    if (!variable.at || !layout.at)
        return;
    table_at(variable, "gvar", &length);
    seen.varied += length > 0;
    ask_pair(FONTCUT_VARIABLE, variable, layout, of);
    if (!tables_differ(layout, of, "GSUB")) {
        bytes again = cut_of(FONTCUT_LAYOUT, variable, (set){.ranges = {every_code}, .count = 1});
        holds(same_bytes(again, layout), FONTCUT_VARIABLE,
              "where no links are cleared the layout cut of a variable cut is that of the font");
        let_go(again.at);
    }
    if (changed_tables(layout, of, ADDED_TABLES) == 0)
        holds(same_bytes(variable, layout), FONTCUT_VARIABLE,
              "without variations and with nothing to clear a variable cut is the layout cut");
}

/* The laws of the layout and the variable cut of a font. */
static void ask_both_shaped(bytes of, set wanted, bytes lean)
{
    bytes layout = cut_of(FONTCUT_LAYOUT, of, wanted), variable = cut_of(FONTCUT_VARIABLE, of, wanted);
    ask_bare(FONTCUT_LAYOUT, of, wanted, LAYOUT_TABLES);
    ask_bare(FONTCUT_VARIABLE, of, wanted, ADDED_TABLES);
    ask_shaped(FONTCUT_LAYOUT, layout, lean, of);
    ask_shaped(FONTCUT_VARIABLE, variable, lean, of);
    ask_variable(variable, layout, of);
    let_go(layout.at);
    let_go(variable.at);
}

/* The laws between all kinds of cuts of an accepted font, which may be refused for layout and variable cuts. */
static void ask_kinds(bytes of, set asked)
{
    set wanted = asked;
    wanted.is_exact = 0;
    for (int kind = FONTCUT_LAYOUT; asked.is_exact && kind < KINDS; kind++)
        ask_exact_beside_lean((fontcut_kind)kind, of, asked);
    bytes full = cut_of(FONTCUT_FULL, of, wanted), lean = cut_of(FONTCUT_LEAN, of, wanted);
    if (full.at && lean.at) {
        ask_beside_lean(FONTCUT_FULL, full, lean);
        holds(form_of(FONTCUT_FULL, lean) == FONTCUT_CURRENT_CUT, FONTCUT_FULL, "a lean cut is in the form of a cut");
        ask_both_shaped(of, wanted, lean);
    }
    let_go(full.at);
    let_go(lean.at);
}

/* The tag of the table that a refusal of tables of layout or of variations is about, as a number. */
static uint32_t named_table(fontcut_answer refusal)
{
    return refusal.status == FONTCUT_BAD_VARIATIONS ? 0x67766172 /* gvar */ : refusal.detail;
}

/* The law of a GSUB that cannot be read: without it links are followed. */
static void ask_bad_links(fontcut_kind kind, bytes file)
{
    bytes without = without_table(file, "GSUB", 0);
    holds(tables_of(file, "GSUB") == 1 && !has_bad_links(kind, without), kind,
          "without a GSUB that cannot be read links are followed");
    free(without.at);
    seen.refused_of[kind]++;
}

/* The laws of a refusal of the tables of layout or of variations of a font that is accepted: it is one of theirs, and
 * where its table is taken away it is gone. */
static void ask_refused_table(fontcut_kind kind, bytes file, fontcut_answer refusal)
{
    uint32_t named = named_table(refusal);
    char tag[TAG + 1] = {(char)(named >> 24), (char)(named >> 16), (char)(named >> 8), (char)named, 0};
    size_t length;
    table_at(file, tag, &length);
    int is_so = refusal.status == FONTCUT_DUPLICATE_TABLE ? tables_of(file, tag) > 1
              : refusal.status == FONTCUT_TABLE_OUT_OF_FILE ? tables_of(file, tag) == 1 && length == 0
              : kind == FONTCUT_VARIABLE && refusal.status == FONTCUT_BAD_VARIATIONS && tables_of(file, tag) == 1;
    holds(is_so, kind, "the table that a font is refused for is as it is said to be");
    bytes without = without_table(file, tag, 0);
    fontcut_answer again = refusal_of(kind, without);
    holds(again.status != refusal.status || again.detail != refusal.detail, kind,
          "without the table that a font is refused for it is not refused so");
    free(without.at);
    seen.refused_of[kind]++;
}

static void ask_case(const font *of)
{
    bytes file = changed(of->file), version = changed(file);
    set sets[SETS];
    for (int i = 0; i < SETS; i++)
        sets[i] = some_set(of);
    int is_accepted = refusal_of(FONTCUT_FULL, file).status == FONTCUT_DONE;
    if (is_accepted && chance(2))
        for (int i = 0; i < SETS; i++)
            sets[i] = with_numbers(sets[i], file);
    seen.accepted += is_accepted;
    seen.refused += !is_accepted;
    for (int number = 0; number < KINDS; number++) {
        fontcut_kind kind = (fontcut_kind)number;
        fontcut_answer refusal = refusal_of(kind, file);
        if (refusal.status == FONTCUT_DONE)
            ask_all(kind, file, version, sets);
        else
            ask_refused(kind, file, sets[0], refusal);
        if (is_accepted && refusal.status != FONTCUT_DONE)
            ask_refused_table(kind, file, refusal);
        else if (is_accepted && has_bad_links(kind, file)) {
            ask_closing_refused(kind, file, sets[0], (fontcut_answer){FONTCUT_BAD_LAYOUT, 0, 0, 0});
            ask_bad_links(kind, file);
        }
    }
    if (is_accepted)
        ask_kinds(file, sets[0]);
    free(file.at);
    free(version.at);
}

static font read_font(const char *path)
{
    font read = {.path = path};
    read.file.at = read_file(path, &read.file.length);
    if (!read.file.at) {
        fprintf(stderr, "laws: cannot read %s\n", path);
        exit(3);
    }
    fontcut_range none;
    read.code_ranges = fontcut_codes(read.file.at, read.file.length, &none, 0).size;
    read.codes = room_of(read.code_ranges * sizeof *read.codes);
    fontcut_codes(read.file.at, read.file.length, read.codes, read.code_ranges);
    return read;
}

int main(int count, char **words)
{
    if (count < 4)
        return 2;
    uint64_t cases = strtoull(words[1], NULL, 10), seed = strtoull(words[2], NULL, 10);
    size_t fonts = (size_t)count - 3;
    font *all = room_of(fonts * sizeof *all);
    for (size_t i = 0; i < fonts; i++)
        all[i] = read_font(words[3 + i]);
    for (trial = 0; trial < cases; trial++) {
        state = seed * 0x100000001B3u + trial;
        const font *of = all + chance(fonts);
        trial_font = of->path;
        ask_case(of);
    }
    printf("%" PRIu64 " accepted, %" PRIu64 " of them refused for layout cuts, %" PRIu64 " for variable cuts, %" PRIu64
           " refused, %" PRIu64 " with glyphs that links lead to, %" PRIu64 " with variation data, %" PRIu64
           " with variation sequences, %" PRIu64 " other joins, %" PRIu64 " with a difference\n", seen.accepted,
           seen.refused_of[FONTCUT_LAYOUT], seen.refused_of[FONTCUT_VARIABLE], seen.refused, seen.linked, seen.varied,
           seen.sequenced, seen.joined, seen.differing);
    printf("%" PRIu64 " of full cuts, %" PRIu64 " of lean cuts, %" PRIu64 " of layout cuts, %" PRIu64
           " of variable cuts held, %" PRIu64 " broken\n", seen.held[FONTCUT_FULL], seen.held[FONTCUT_LEAN],
           seen.held[FONTCUT_LAYOUT], seen.held[FONTCUT_VARIABLE], seen.broken);
    return seen.broken != 0;
}
