/* Does the calls of fontcut.h that the lines of standard input ask for, in C99 and in C++17, and prints each answer:
 *
 *     check FONT
 *     cut FONT OUT ROOM REQUEST       ROOM is a number of bytes, or - for just as many as are needed. A request is the
 *                                     word +KIND,FLAGS,MORE,GLYPHS and its ranges, FIRST-LAST in hexadecimal digits.
 *                                     KIND and FLAGS are numbers, its struct_size is MORE larger than it should be, and
 *                                     GLYPHS is a file of numbers of 16 bits, or nothing
 *     cuts FONT OUT ROOM PLACES REQUESTS..
 *                                     PLACES is a number of sizes, or - for just as many as there are requests; OUT
 *                                     gets the sizes, as numbers of 64 bits, and then the cuts
 *     closure FONT OUT ROOM REQUEST   OUT gets numbers of 16 bits; ROOM is a number of glyphs
 *     kept KIND FONT OUT ROOM         the same
 *     form KIND FONT
 *     belongs KIND CUT FONT
 *     join KIND OUT ROOM FILES..
 *     codes FONT OUT ROOM             OUT gets a line for each range; ROOM is a number of ranges
 *     needed TEXT OUT ROOM            the same, of a text
 *     ranges LIST OUT ROOM            the same, of a list
 *     glyphs FLAGS FONT CODES OUT ROOM
 *                                     CODES and OUT are files of numbers of 32 and 16 bits, in this machine's order of
 *                                     bytes; ROOM is a number of glyphs
 *     metrics FLAGS FONT GLYPHS OUT ROOM
 *                                     the same, of glyphs and their metrics
 *     variants FLAGS FONT TEXT OUT ROOM
 *                                     the same, of a text and glyphs
 *     info FONT OUT                   OUT gets the bytes of the numbers
 *     nothing KIND FONT               each call with areas of no bytes, for the font where it takes one: prints `same`
 *                                     where it answers the same for NULL and for an address
 *     version                         prints the version alone
 *     text STATUS DETAIL SIZE STEP    also prints the text
 *
 * Each room lies between guards, and the answer is followed by `touched` where a byte was written that should not be.
 * What has the flag FONTCUT_CHECKED is asked with it too where the font is accepted, a cut with no room and as the one
 * of many, and a closure with FONTCUT_CLOSES: `otherwise` stands before an answer that is not the same then.
 * With the argument N the whole of standard input is done in N threads at once, and only the first of them prints. */
#include "fontcut.h"

#include <inttypes.h>
#include <pthread.h>
#include <stdio.h>
#include <stdlib.h>
#include <string.h>

enum { WORDS = 512, LINE = 65536, GUARD = 64, FILL = 0xA5, NEEDED = -1 };

static char *lines;

typedef struct file {
    uint8_t *at;
    size_t length;
} file;

static void *got(size_t bytes)
{
    void *at = malloc(bytes ? bytes : 1);
    if (!at) {
        fprintf(stderr, "library_calls: no memory\n");
        exit(3);
    }
    return at;
}

static file read_file(const char *path)
{
    file read = {NULL, 0};
    FILE *from = fopen(path, "rb");
    if (!from || fseek(from, 0, SEEK_END)) {
        fprintf(stderr, "library_calls: cannot read %s\n", path);
        exit(3);
    }
    read.length = (size_t)ftell(from);
    rewind(from);
    read.at = (uint8_t *)got(read.length);
    if (fread(read.at, 1, read.length, from) != read.length)
        exit(3);
    fclose(from);
    return read;
}

static void write_file(const char *path, const uint8_t *at, size_t length)
{
    FILE *to = fopen(path, "wb");
    if (!to || fwrite(at, 1, length, to) != length || fclose(to))
        exit(3);
}

/* Room for so many bytes between guards, all of it filled. */
static uint8_t *guarded(size_t room)
{
    uint8_t *all = (uint8_t *)got(room + 2 * GUARD);
    memset(all, FILL, room + 2 * GUARD);
    return all + GUARD;
}

/* Whether only the first so many bytes of the room were written. */
static int is_untouched(const uint8_t *out, size_t written, size_t room)
{
    size_t i;
    for (i = 0; i < GUARD; i++)
        if (out[i - GUARD] != FILL)
            return 0;
    for (i = written; i < room + GUARD; i++)
        if (out[i] != FILL)
            return 0;
    return 1;
}

static void say(int is_first, fontcut_answer answer, int is_whole)
{
    if (is_first)
        printf("%" PRIu32 " %" PRIu32 " %" PRIu64 " %" PRIu64 "%s\n", answer.status, answer.detail, answer.size,
               answer.step, is_whole ? "" : " touched");
}

static void read_range(const char *word, fontcut_range *range)
{
    char *rest;
    range->first = (uint32_t)strtoul(word, &rest, 16);
    range->last = (uint32_t)strtoul(rest + 1, NULL, 16);
}

static size_t room_of(const char *word, uint64_t needed)
{
    return word[0] == '-' ? (size_t)needed : (size_t)strtoull(word, NULL, 10);
}

static int is_same(fontcut_answer one, fontcut_answer other)
{
    return one.status == other.status && one.detail == other.detail && one.size == other.size && one.step == other.step;
}

static uint32_t kind_of(const char *word)
{
    return (uint32_t)strtoul(word, NULL, 10);
}

/* Whether a font is accepted, so that the calls for fonts that were checked may be called. */
static int is_accepted(file font)
{
    return fontcut_check(font.at, font.length).status == FONTCUT_DONE;
}

/* A font, what is wanted of it by each of some requests, and what these point to. */
typedef struct question {
    file font;
    fontcut_request requests[WORDS];
    size_t count;
    fontcut_range ranges[WORDS];
    file lists[WORDS];
} question;

/* Begins a request, of the word that it begins with. */
static void begin_request(question *asked, const char *word)
{
    fontcut_request *request = asked->requests + asked->count;
    file *list = asked->lists + asked->count++;
    char *rest;
    memset(request, 0, sizeof *request);
    request->kind = (uint32_t)strtoul(word + 1, &rest, 10);
    request->flags = (uint32_t)strtoul(rest + 1, &rest, 10);
    request->struct_size = sizeof *request + (size_t)strtoll(rest + 1, &rest, 10);
    memset(list, 0, sizeof *list);
    if (!rest[1])
        return;
    *list = read_file(rest + 1);
    request->glyphs = (const uint16_t *)(const void *)list->at;
    request->glyph_count = list->length / sizeof(uint16_t);
}

/* Reads a font and requests, which it returns. They are freed by free_question. */
static question *read_question(const char *font, char **words, int count)
{
    question *asked = (question *)got(sizeof *asked);
    int i;
    asked->font = read_file(font);
    asked->count = 0;
    for (i = 0; i < count; i++)
        if (words[i][0] == '+') {
            begin_request(asked, words[i]);
            asked->requests[asked->count - 1].ranges = asked->ranges + i + 1;
        } else {
            read_range(words[i], asked->ranges + i);
            asked->requests[asked->count - 1].range_count++;
        }
    return asked;
}

static void free_question(question *asked)
{
    size_t i;
    for (i = 0; i < asked->count; i++)
        free(asked->lists[i].at);
    free(asked->font.at);
    free(asked);
}

/* Whether a request with other flags is answered in the same way, and writes the same. */
static int is_same_with(const question *asked, uint32_t flags, fontcut_answer answer, const uint8_t *out, size_t room)
{
    fontcut_request request = asked->requests[0];
    uint8_t *other = guarded(room);
    int same;
    request.flags |= flags;
    same = is_same(answer, fontcut_subset(&request, asked->font.at, asked->font.length, other, room)) &&
           !memcmp(out - GUARD, other - GUARD, room + 2 * GUARD);
    free(other - GUARD);
    return same;
}

/* Whether the call for many requests answers and writes the same for one. */
static int is_same_of_many(const question *asked, fontcut_answer answer, const uint8_t *out, size_t room)
{
    uint64_t size = answer.size;
    uint8_t *other = guarded(room);
    int same = is_same(answer, fontcut_subsets(asked->requests, 1, asked->font.at, asked->font.length, other, room,
                                               &size, 1)) &&
               size == answer.size && !memcmp(out - GUARD, other - GUARD, room + 2 * GUARD);
    free(other - GUARD);
    return same;
}

static void do_cut(int is_first, char **words, int count)
{
    question *asked = read_question(words[1], words + 4, count - 4);
    const file font = asked->font;
    fontcut_answer measured = fontcut_subset(asked->requests, font.at, font.length, NULL, 0), answer;
    size_t room = room_of(words[3], measured.size), written;
    uint8_t *out = guarded(room);
    answer = fontcut_subset(asked->requests, font.at, font.length, out, room);
    written = answer.status ? 0 : (size_t)answer.size;
    if (is_first && (measured.size != answer.size || (answer.status && measured.status != answer.status)))
        printf("otherwise measured ");
    if (is_first && !is_same_of_many(asked, answer, out, room))
        printf("otherwise of many ");
    if (is_first && is_accepted(font) && !is_same_with(asked, FONTCUT_CHECKED, answer, out, room))
        printf("otherwise checked ");
    say(is_first, answer, is_untouched(out, written, room));
    if (is_first)
        write_file(words[2], out, written);
    free(out - GUARD);
    free_question(asked);
}

static void do_cuts(int is_first, char **words, int count)
{
    question *asked = read_question(words[1], words + 5, count - 5);
    const file font = asked->font;
    size_t places = room_of(words[4], asked->count), told = places * sizeof(uint64_t), room, written;
    uint8_t *sizes = guarded(told), *out = guarded(0), *both;
    uint64_t *numbers = (uint64_t *)(void *)sizes;
    fontcut_answer answer =
        fontcut_subsets(asked->requests, asked->count, font.at, font.length, out, 0, numbers, places);
    int is_whole = is_untouched(out, 0, 0) && is_untouched(sizes, 0, told);
    free(out - GUARD);
    room = room_of(words[3], answer.size);
    out = guarded(room);
    answer = fontcut_subsets(asked->requests, asked->count, font.at, font.length, out, room, numbers, places);
    written = answer.status ? 0 : (size_t)answer.size;
    told = answer.status ? 0 : told;
    is_whole = is_whole && is_untouched(out, written, room) && is_untouched(sizes, told, places * sizeof(uint64_t));
    say(is_first, answer, is_whole);
    both = (uint8_t *)got(told + written);
    memcpy(both, sizes, told);
    memcpy(both + told, out, written);
    if (is_first)
        write_file(words[2], both, told + written);
    free(both);
    free(out - GUARD);
    free(sizes - GUARD);
    free_question(asked);
}

static void do_form(int is_first, char **words)
{
    uint32_t kind = kind_of(words[1]);
    file font = read_file(words[2]);
    say(is_first, fontcut_cut_form(kind, font.at, font.length), 1);
    free(font.at);
}

static void do_belongs(int is_first, char **words)
{
    uint32_t kind = kind_of(words[1]);
    file cut = read_file(words[2]), font = read_file(words[3]);
    say(is_first, fontcut_belongs(kind, cut.at, cut.length, font.at, font.length), 1);
    free(cut.at);
    free(font.at);
}

static void do_join(int is_first, char **words, int count)
{
    static fontcut_bytes none;
    fontcut_bytes *files = (fontcut_bytes *)got(sizeof none * (size_t)count);
    size_t given = (size_t)count - 4, i, room;
    uint32_t kind = kind_of(words[1]);
    uint8_t *out;
    fontcut_answer answer;
    for (i = 0; i < given; i++) {
        file one = read_file(words[i + 4]);
        files[i].at = one.at;
        files[i].length = one.length;
    }
    out = guarded(0);
    room = room_of(words[3], words[3][0] == '-' ? fontcut_join(kind, files, given, out, 0).size : 0);
    free(out - GUARD);
    out = guarded(room);
    answer = fontcut_join(kind, files, given, out, room);
    say(is_first, answer, is_untouched(out, answer.status ? 0 : (size_t)answer.size, room));
    if (is_first)
        write_file(words[2], out, answer.status ? 0 : (size_t)answer.size);
    free(out - GUARD);
    for (i = 0; i < given; i++)
        free((void *)files[i].at);
    free(files);
}

/* Says an answer whose room has ranges, and writes these to a file as lines. */
static void say_ranges(int is_first, fontcut_answer answer, const char *path, const uint8_t *out, size_t room)
{
    size_t i, written = answer.status ? 0 : (size_t)answer.size;
    FILE *to;
    say(is_first, answer, is_untouched(out, written * sizeof(fontcut_range), room * sizeof(fontcut_range)));
    if (!is_first)
        return;
    to = fopen(path, "wb");
    for (i = 0; to && i < written; i++) {
        fontcut_range range;
        memcpy(&range, out + i * sizeof range, sizeof range);
        fprintf(to, range.first == range.last ? "U+%" PRIX32 "\n" : "U+%" PRIX32 "-%" PRIX32 "\n", range.first,
                range.last);
    }
    if (!to || fclose(to))
        exit(3);
}

/* The calls that write ranges: of a font, of a text and of a list. */
static void do_ranges(int is_first, char **words)
{
    file given = read_file(words[1]);
    size_t room = (size_t)strtoull(words[3], NULL, 10);
    uint8_t *out = guarded(room * sizeof(fontcut_range));
    fontcut_range *ranges = (fontcut_range *)(void *)out;
    fontcut_answer answer = words[0][0] == 'c'   ? fontcut_codes(given.at, given.length, ranges, room)
                            : words[0][0] == 'n' ? fontcut_needed(given.at, given.length, ranges, room)
                                                 : fontcut_ranges(given.at, given.length, ranges, room);
    say_ranges(is_first, answer, words[2], out, room);
    free(out - GUARD);
    free(given.at);
}

/* Says an answer and whether its room holds so many bytes and no other was touched, and writes these to a file. */
static void say_filled(int is_first, fontcut_answer answer, const char *path, const uint8_t *out, size_t item,
                       size_t room)
{
    size_t written = answer.status ? 0 : (size_t)answer.size * item;
    say(is_first, answer, is_untouched(out, written, room * item));
    if (is_first)
        write_file(path, out, written);
}

/* The calls that look something up: glyphs of codes, metrics of glyphs, and glyphs of the sequences of a text. */
static fontcut_answer look_up(char **words, uint32_t flags, file font, file given, uint8_t *out, size_t room)
{
    if (words[0][0] == 'g')
        return fontcut_glyphs(flags, font.at, font.length, (const uint32_t *)(const void *)given.at,
                              given.length / sizeof(uint32_t), (uint16_t *)(void *)out, room);
    if (words[0][0] == 'v')
        return fontcut_variants(flags, font.at, font.length, given.at, given.length, (uint16_t *)(void *)out, room);
    return fontcut_metrics(flags, font.at, font.length, (const uint16_t *)(const void *)given.at,
                           given.length / sizeof(uint16_t), (fontcut_metric *)(void *)out, room);
}

static void do_look_up(int is_first, char **words)
{
    uint32_t flags = (uint32_t)strtoul(words[1], NULL, 10);
    file font = read_file(words[2]), given = read_file(words[3]);
    size_t item = words[0][0] == 'm' ? sizeof(fontcut_metric) : sizeof(uint16_t);
    size_t room = (size_t)strtoull(words[5], NULL, 10);
    uint8_t *out = guarded(room * item), *other = guarded(room * item);
    fontcut_answer answer = look_up(words, flags, font, given, out, room);
    if (is_first && is_accepted(font) &&
        (!is_same(answer, look_up(words, flags | FONTCUT_CHECKED, font, given, other, room)) ||
         memcmp(out - GUARD, other - GUARD, room * item + 2 * GUARD)))
        printf("otherwise checked ");
    free(other - GUARD);
    say_filled(is_first, answer, words[4], out, item, room);
    free(out - GUARD);
    free(given.at);
    free(font.at);
}

static void do_info(int is_first, char **words)
{
    file font = read_file(words[1]);
    uint8_t *out = guarded(sizeof(fontcut_font_info));
    fontcut_answer answer = fontcut_info(font.at, font.length, (fontcut_font_info *)(void *)out);
    size_t written = answer.status ? 0 : sizeof(fontcut_font_info);
    say(is_first, answer, is_untouched(out, written, sizeof(fontcut_font_info)));
    if (is_first)
        write_file(words[2], out, written);
    free(out - GUARD);
    free(font.at);
}

/* Whether a closure is the same with FONTCUT_CLOSES, and of an accepted font with FONTCUT_CHECKED. */
static int is_same_closure(const question *asked, fontcut_answer answer, const uint8_t *out, size_t room)
{
    fontcut_request request = asked->requests[0];
    uint8_t *other = guarded(room * sizeof(uint16_t));
    int same;
    request.flags |= FONTCUT_CLOSES | (is_accepted(asked->font) ? FONTCUT_CHECKED : 0);
    same = is_same(answer, fontcut_closure(&request, asked->font.at, asked->font.length, (uint16_t *)(void *)other,
                                           room)) &&
           !memcmp(out - GUARD, other - GUARD, room * sizeof(uint16_t) + 2 * GUARD);
    free(other - GUARD);
    return same;
}

static void do_closure(int is_first, char **words, int count)
{
    question *asked = read_question(words[1], words + 4, count - 4);
    size_t room = (size_t)strtoull(words[3], NULL, 10);
    uint8_t *out = guarded(room * sizeof(uint16_t));
    fontcut_answer answer = fontcut_closure(asked->requests, asked->font.at, asked->font.length,
                                            (uint16_t *)(void *)out, room);
    if (is_first && !is_same_closure(asked, answer, out, room))
        printf("otherwise with flags ");
    say_filled(is_first, answer, words[2], out, sizeof(uint16_t), room);
    free(out - GUARD);
    free_question(asked);
}

static void do_lost(int is_first, char **words, int count)
{
    question *asked = read_question(words[1], words + 3, count - 3);
    uint8_t *out = guarded(sizeof(fontcut_losses));
    fontcut_answer answer =
        fontcut_lost(asked->requests, asked->font.at, asked->font.length, (fontcut_losses *)(void *)out);
    size_t written = answer.status ? 0 : sizeof(fontcut_losses);
    say(is_first, answer, is_untouched(out, written, sizeof(fontcut_losses)));
    if (is_first)
        write_file(words[2], out, written);
    free(out - GUARD);
    free_question(asked);
}

static void do_kept(int is_first, char **words)
{
    file font = read_file(words[2]);
    size_t room = (size_t)strtoull(words[4], NULL, 10);
    uint8_t *out = guarded(room * sizeof(uint16_t));
    fontcut_answer answer = fontcut_kept(kind_of(words[1]), font.at, font.length, (uint16_t *)(void *)out, room);
    say_filled(is_first, answer, words[3], out, sizeof(uint16_t), room);
    free(out - GUARD);
    free(font.at);
}

/* An address at which nothing is, for areas of no bytes of any type. */
static uint64_t no_bytes[1];

static void *address(int is_null)
{
    return is_null ? NULL : no_bytes;
}

/* The answers of the calls that make cuts or joins, or ask for them, each with areas of no bytes. */
static int answers_of_cuts(uint32_t kind, file font, int is_null, fontcut_answer *answers)
{
    uint8_t *none = (uint8_t *)address(is_null);
    uint16_t *glyphs = (uint16_t *)address(is_null);
    const fontcut_range *ranges = (const fontcut_range *)address(is_null);
    uint64_t *sizes = (uint64_t *)address(is_null), size = 0;
    fontcut_request request = {sizeof request, kind, FONTCUT_CLOSES, ranges, 0, glyphs, 0};
    fontcut_bytes cut;
    cut.at = font.at;
    cut.length = font.length;
    answers[0] = fontcut_subset(&request, font.at, font.length, none, 0);
    answers[1] = fontcut_subset(&request, none, 0, none, 0);
    answers[2] = fontcut_subsets(&request, 1, font.at, font.length, none, 0, &size, 1);
    answers[3] = fontcut_subsets(&request, 1, font.at, font.length, none, 0, sizes, 0);
    answers[4] = fontcut_subsets((const fontcut_request *)address(is_null), 0, none, 0, none, 0, sizes, 0);
    answers[5] = fontcut_closure(&request, font.at, font.length, glyphs, 0);
    answers[6] = fontcut_closure(&request, none, 0, glyphs, 0);
    answers[7] = fontcut_kept(kind, font.at, font.length, glyphs, 0);
    answers[8] = fontcut_kept(kind, none, 0, glyphs, 0);
    answers[9] = fontcut_cut_form(kind, none, 0);
    answers[10] = fontcut_belongs(kind, none, 0, font.at, font.length);
    answers[11] = fontcut_belongs(kind, font.at, font.length, none, 0);
    answers[12] = fontcut_join(kind, (const fontcut_bytes *)address(is_null), 0, none, 0);
    answers[13] = fontcut_join(kind, &cut, 1, none, 0);
    request.flags = is_accepted(font) ? FONTCUT_CHECKED : 0;
    answers[14] = fontcut_subset(&request, font.at, font.length, none, 0);
    return 15;
}

/* The same of the calls that look something up or read a text. */
static int answers_of_lookups(file font, int is_null, fontcut_answer *answers)
{
    uint8_t *none = (uint8_t *)address(is_null);
    fontcut_range *ranges = (fontcut_range *)address(is_null);
    const uint32_t *codes = (const uint32_t *)address(is_null), flags = is_accepted(font) ? FONTCUT_CHECKED : 0;
    uint16_t *glyphs = (uint16_t *)address(is_null);
    fontcut_metric *metrics = (fontcut_metric *)address(is_null);
    const fontcut_request request = {sizeof request, FONTCUT_FULL, 0, NULL, 0, NULL, 0};
    fontcut_font_info info;
    fontcut_losses losses;
    answers[0] = fontcut_check(none, 0);
    answers[1] = fontcut_codes(font.at, font.length, ranges, 0);
    answers[2] = fontcut_glyphs(0, font.at, font.length, codes, 0, glyphs, 0);
    answers[3] = fontcut_metrics(0, font.at, font.length, glyphs, 0, metrics, 0);
    answers[4] = fontcut_info(none, 0, &info);
    answers[5] = fontcut_refusal_text(answers[0], none, 0);
    answers[6] = fontcut_needed(none, 0, ranges, 0);
    answers[7] = fontcut_ranges(none, 0, ranges, 0);
    answers[8] = fontcut_glyphs(flags, font.at, font.length, codes, 0, glyphs, 0);
    answers[9] = fontcut_metrics(flags, font.at, font.length, glyphs, 0, metrics, 0);
    answers[10] = fontcut_lost(&request, none, 0, &losses);
    answers[11] = fontcut_variants(0, font.at, font.length, none, 0, glyphs, 0);
    answers[12] = fontcut_variants(flags, font.at, font.length, none, 0, glyphs, 0);
    return 13;
}

static void do_nothing(int is_first, char **words)
{
    uint32_t kind = kind_of(words[1]);
    file font = read_file(words[2]);
    fontcut_answer of_address[32], of_null[32];
    int i, count = answers_of_cuts(kind, font, 0, of_address);
    count += answers_of_lookups(font, 0, of_address + count);
    answers_of_lookups(font, 1, of_null + answers_of_cuts(kind, font, 1, of_null));
    for (i = 0; i < count && is_same(of_address[i], of_null[i]); i++) {
    }
    if (is_first && i == count)
        printf("same\n");
    else if (is_first)
        printf("otherwise at %d\n", i);
    free(font.at);
}

static void do_version(int is_first)
{
    if (is_first)
        printf("%" PRIX32 " %s %s\n", fontcut_version(), FONTCUT_VERSION,
               fontcut_version() == FONTCUT_VERSION_NUMBER ? "same" : "other");
}

/* Whether room for just the text is enough, and gets the same text. */
static int fits(fontcut_answer asked, fontcut_answer answer, const uint8_t *text)
{
    size_t room = (size_t)answer.size;
    uint8_t *out = guarded(room);
    fontcut_answer again = fontcut_refusal_text(asked, out, room);
    int is_same = again.status == answer.status && again.size == answer.size && !memcmp(out, text, room) &&
                  is_untouched(out, room, room);
    free(out - GUARD);
    return is_same;
}

static void do_text(int is_first, char **words)
{
    fontcut_answer asked, answer;
    uint8_t *out = guarded(64);
    asked.status = (uint32_t)strtoul(words[1], NULL, 10);
    asked.detail = (uint32_t)strtoul(words[2], NULL, 10);
    asked.size = strtoull(words[3], NULL, 10);
    asked.step = strtoull(words[4], NULL, 10);
    answer = fontcut_refusal_text(asked, out, 64);
    say(is_first, answer, is_untouched(out, answer.status ? 0 : (size_t)answer.size, 64) && fits(asked, answer, out));
    if (is_first)
        printf("%.*s\n", (int)answer.size, (const char *)out);
    free(out - GUARD);
}

static void do_check(int is_first, char **words)
{
    file font = read_file(words[1]);
    say(is_first, fontcut_check(font.at, font.length), 1);
    free(font.at);
}

static void do_line(int is_first, char **words, int count)
{
    if (!strcmp(words[0], "cut"))
        do_cut(is_first, words, count);
    else if (!strcmp(words[0], "cuts"))
        do_cuts(is_first, words, count);
    else if (!strcmp(words[0], "closure"))
        do_closure(is_first, words, count);
    else if (!strcmp(words[0], "lost"))
        do_lost(is_first, words, count);
    else if (!strcmp(words[0], "kept"))
        do_kept(is_first, words);
    else if (!strcmp(words[0], "join"))
        do_join(is_first, words, count);
    else if (!strcmp(words[0], "codes") || !strcmp(words[0], "needed") || !strcmp(words[0], "ranges"))
        do_ranges(is_first, words);
    else if (!strcmp(words[0], "text"))
        do_text(is_first, words);
    else if (!strcmp(words[0], "form"))
        do_form(is_first, words);
    else if (!strcmp(words[0], "belongs"))
        do_belongs(is_first, words);
    else if (!strcmp(words[0], "glyphs") || !strcmp(words[0], "metrics") || !strcmp(words[0], "variants"))
        do_look_up(is_first, words);
    else if (!strcmp(words[0], "info"))
        do_info(is_first, words);
    else if (!strcmp(words[0], "nothing"))
        do_nothing(is_first, words);
    else if (!strcmp(words[0], "version"))
        do_version(is_first);
    else
        do_check(is_first, words);
}

static void *do_all(void *is_first)
{
    char *mine = (char *)got(strlen(lines) + 1), *line, *next;
    strcpy(mine, lines);
    for (line = mine; *line; line = next) {
        char *words[WORDS], *rest = line, *word;
        int count = 0;
        next = strchr(line, '\n');
        next = next ? next + 1 : line + strlen(line);
        if (*next || next[-1] == '\n')
            next[-1] = 0;
        while ((word = strtok_r(rest, " ", &rest)) && count < WORDS)
            words[count++] = word;
        if (count)
            do_line(is_first != NULL, words, count);
    }
    free(mine);
    return NULL;
}

int main(int count, char **words)
{
    int threads = 1 < count ? atoi(words[1]) : 1, i;
    pthread_t others[16];
    size_t length = 0, room = LINE, more;
    lines = (char *)got(room + 1);
    while ((more = fread(lines + length, 1, room - length, stdin)) > 0) {
        length += more;
        if (length == room) {
            room *= 2;
            lines = (char *)realloc(lines, room + 1);
            if (!lines)
                return 3;
        }
    }
    lines[length] = 0;
    for (i = 1; i < threads && i < 16; i++)
        if (pthread_create(&others[i], NULL, do_all, NULL))
            return 3;
    do_all(&threads);
    for (i = 1; i < threads && i < 16; i++)
        pthread_join(others[i], NULL);
    free(lines);
    return 0;
}
