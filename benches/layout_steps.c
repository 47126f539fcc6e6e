/* Times reading the links of a GSUB, in turn:

       fontcut fontcut_subset with FONTCUT_CHECKED and no room, for no code, of the layout kind: it reads the GSUB,
               lists its links, follows those from .notdef, and measures a cut, which takes next to nothing where the
               font is a small one
       lean    the same of the lean kind, which reads no GSUB
       loop    the C loops below, which take the same steps (docs/FORMAT.md, The layout cut, How GSUB is read), count
               the links of each glyph, and list them: two arrays, as fontcut has them

   Words: the font, the milliseconds that each way is given in all, and the least number of its calls. What is printed
   is said in in_memory.h; what `loop` makes is the number of steps. */
#include "in_memory.h"

enum { STEP_LIMIT = 1048576, GLYPHS = 65536, SMALLEST = 10 };

/* What a subtable has for a glyph with an index of its Coverage. */
typedef enum form { DELTA, SUBSTITUTES, SEQUENCES, LIGATURES } form;

typedef struct subtable {
    form form;
    size_t place, coverage;
    size_t entries; /* where the first entry stands, or of DELTA what is added */
    size_t count;
} subtable;

static unsigned char *table;
static size_t length, steps;
static int is_listing; /* links are counted first, and then listed */
static uint32_t places[GLYPHS];
static size_t numbers; /* one more than the largest number that a link leads from */
static uint16_t *links;

static size_t number(size_t place)
{
    return (size_t)table[place] << 8 | table[place + 1];
}

static int is_within(size_t place, size_t bytes)
{
    return bytes <= length && place <= length - bytes;
}

/* Whether a count and as many items of a size after it lie in the table. */
static int has_items(size_t place, size_t size)
{
    return is_within(place, 2) && is_within(place + 2, size * number(place));
}

static int step(void)
{
    return ++steps <= STEP_LIMIT;
}

static int link_to(size_t from, size_t to)
{
    if (is_listing)
        links[places[from]] = (uint16_t)to;
    else if (from >= numbers)
        numbers = from + 1;
    places[from]++;
    return step();
}

static int read_sequence(size_t glyph, size_t place)
{
    if (!has_items(place, 2))
        return 0;
    for (size_t item = place + 2, end = item + 2 * number(place); item < end; item += 2)
        if (!link_to(glyph, number(item)))
            return 0;
    return 1;
}

static int read_ligature(size_t glyph, size_t place)
{
    if (!is_within(place, 4))
        return 0;
    size_t components = number(place + 2);
    return is_within(place + 4, components ? 2 * (components - 1) : 0) && link_to(glyph, number(place));
}

static int read_ligatures(size_t glyph, size_t place)
{
    if (!has_items(place, 2))
        return 0;
    for (size_t item = place + 2, end = item + 2 * number(place); item < end; item += 2)
        if (!step() || (number(item) && !read_ligature(glyph, place + number(item))))
            return 0;
    return 1;
}

static int read_entry(const subtable *of, size_t glyph, size_t index)
{
    if (of->form == DELTA)
        return link_to(glyph, (glyph + of->entries) % GLYPHS);
    if (index >= of->count)
        return 1;
    size_t entry = number(of->entries + 2 * index);
    if (of->form == SUBSTITUTES)
        return link_to(glyph, entry);
    if (!step())
        return 0;
    return entry == 0 || (of->form == SEQUENCES ? read_sequence : read_ligatures)(glyph, of->place + entry);
}

static int read_span(const subtable *of, size_t first, size_t last, size_t index)
{
    if (!step())
        return 0;
    for (size_t glyph = first; glyph <= last; glyph++, index++)
        if (!step() || !read_entry(of, glyph, index))
            return 0;
    return 1;
}

static int read_coverage(const subtable *of)
{
    size_t place = of->coverage;
    if (!step())
        return 0;
    if (place == of->place)
        return 1;
    if (!is_within(place, 4) || number(place) - 1 > 1 || !has_items(place + 2, number(place) == 1 ? 2 : 6))
        return 0;
    size_t count = number(place + 2), item = place + 4;
    for (size_t index = 0; index < count; index++) {
        int is_glyph = number(place) == 1;
        size_t at = item + (is_glyph ? 2 : 6) * index;
        if (!read_span(of, number(at), number(is_glyph ? at : at + 2), is_glyph ? index : number(at + 4)))
            return 0;
    }
    return 1;
}

/* Finds entries that are listed after their count. */
static int find_list(subtable *of, form form, size_t place)
{
    if (!has_items(place, 2))
        return 0;
    of->form = form;
    of->entries = place + 2;
    of->count = number(place);
    return 1;
}

/* Finds the substitutes of a subtable of type 8, after its two lists of other Coverage tables. */
static int find_reverse(subtable *of, size_t place)
{
    for (int list = 0; list < 2; list++) {
        if (!has_items(place, 2))
            return 0;
        place += 2 + 2 * number(place);
    }
    return find_list(of, SUBSTITUTES, place);
}

/* Finds what a subtable of a type has for the glyphs that it covers. */
static int find_entries(subtable *of, size_t kind)
{
    size_t format = number(of->place), place = of->place + 4;
    if (kind == 1 && format == 2)
        return find_list(of, SUBSTITUTES, place);
    if (format != 1)
        return 0;
    if (kind == 8)
        return find_reverse(of, place);
    if (kind != 1)
        return find_list(of, kind == 4 ? LIGATURES : SEQUENCES, place);
    of->form = DELTA;
    of->entries = number(place);
    return 1;
}

static int read_subtable(size_t kind, size_t place)
{
    if (kind == 5 || kind == 6)
        return 1;
    if (!is_within(place, 6))
        return 0;
    subtable of = {.place = place, .coverage = place + number(place + 2)};
    return find_entries(&of, kind) && read_coverage(&of);
}

static int read_extension(size_t place)
{
    if (!is_within(place, 8) || number(place) != 1)
        return 0;
    size_t kind = number(place + 2), offset = number(place + 4) << 16 | number(place + 6);
    if (kind < 1 || kind > 8 || kind == 7 || !step())
        return 0;
    return offset == 0 || read_subtable(kind, place + offset);
}

static int read_lookup(size_t place)
{
    if (!has_items(place + 4, 2))
        return 0;
    size_t kind = number(place), count = number(place + 4);
    if (kind < 1 || kind > 8)
        return 0;
    for (size_t index = 0; index < count; index++) {
        size_t offset = number(place + 6 + 2 * index);
        if (!step())
            return 0;
        if (offset && !(kind == 7 ? read_extension(place + offset) : read_subtable(kind, place + offset)))
            return 0;
    }
    return 1;
}

/* Takes all steps. Returns 0 where the table is refused. */
static int walk(void)
{
    steps = 0;
    if (length < SMALLEST || number(0) != 1)
        return 0;
    size_t list = number(8);
    if (list == 0)
        return 1;
    if (!has_items(list, 2))
        return 0;
    for (size_t index = 0, count = number(list); index < count; index++) {
        size_t offset = number(list + 2 + 2 * index);
        if (!step() || (offset && !read_lookup(list + offset)))
            return 0;
    }
    return 1;
}

/* Puts where the links of each glyph begin in the place of how many there are. Returns how many all are. */
static size_t sum_up(void)
{
    uint32_t total = 0;
    for (size_t glyph = 0; glyph < numbers; glyph++) {
        uint32_t here = places[glyph];
        places[glyph] = total;
        total += here;
    }
    return total;
}

static size_t call_loop(void)
{
    memset(places, 0, numbers * sizeof places[0]);
    numbers = 0;
    is_listing = 0;
    if (!walk())
        return 0;
    links = malloc(2 * sum_up() + 2);
    is_listing = 1;
    int is_done = links != NULL && walk();
    free(links);
    return is_done ? steps : 0;
}

static size_t call_kind(fontcut_kind kind)
{
    fontcut_request request = request_of(kind, FONTCUT_CHECKED);
    fontcut_answer answer = fontcut_subset(&request, font, font_length, NULL, 0);
    return answer.status == FONTCUT_SMALL_ROOM ? (size_t)answer.size : 0;
}

static size_t call_fontcut(void)
{
    return call_kind(FONTCUT_LAYOUT);
}

static size_t call_lean(void)
{
    return call_kind(FONTCUT_LEAN);
}

/* Finds the GSUB of the font, which is an accepted one, so that its directory is whole. */
static int find_gsub(void)
{
    size_t records = (size_t)font[4] << 8 | font[5];
    for (unsigned char *record = font + 12; record < font + 12 + 16 * records; record += 16)
        if (memcmp(record, "GSUB", 4) == 0) {
            uint32_t fields[2];
            memcpy(fields, record + 8, sizeof fields);
            size_t offset = __builtin_bswap32(fields[0]);
            length = __builtin_bswap32(fields[1]);
            table = font + offset;
            return offset <= font_length && length <= font_length - offset;
        }
    return 0;
}

static way ways[] = {
    {.name = "fontcut", .call = call_fontcut, .parts = 1},
    {.name = "lean", .call = call_lean, .parts = 1},
    {.name = "loop", .call = call_loop, .parts = 1},
};

int main(int count, char **words)
{
    if (count != 4)
        return 1;
    read_font(words[1]);
    if (fontcut_check(font, font_length).status != FONTCUT_DONE || !find_gsub())
        return 3;
    time_ways(ways, sizeof ways / sizeof ways[0], words[2], words[3]);
    return 0;
}
