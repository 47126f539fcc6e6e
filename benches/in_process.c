/* Times six ways to the bytes of a cut, all in memory and in one process, in turn:

       cut     fontcut_subset into a room that is kept, of the full kind
       lean    the same of the lean kind
       checked the same with FONTCUT_CHECKED, of a font that was accepted before
       hb      hb_subset_or_fail, and the blob of what it makes; the face and the input are made for each call,
               as a cut begins with the same bytes and ranges each time
       kept    the same of a face that was made once, and made ready by hb_subset_preprocess; the input is made for
               each call
       copy    copying as many bytes as the cut has into that room, and summing their words once

   Words: the font, a file with a line FIRST-LAST in hexadecimal digits for each range of wanted codes, the
   milliseconds that each way is given in all, and the least number of its calls. What is printed is said in
   in_memory.h.

   HarfBuzz keeps glyph numbers and hints, and drops the layout tables, as a cut does: it has no closure over them to
   do. A way that fails is left out, and so is HarfBuzz where it is not there. */
#include "in_memory.h"

static size_t cut_length;
static volatile uint32_t last_sum; /* so that no sum is left out */

static size_t call_cut(void)
{
    return cut_into_room(FONTCUT_FULL, 0);
}

static size_t call_lean(void)
{
    return cut_into_room(FONTCUT_LEAN, 0);
}

static size_t call_checked(void)
{
    return cut_into_room(FONTCUT_FULL, FONTCUT_CHECKED);
}

static size_t call_copy(void)
{
    last_sum = copy_and_sum(room, cut_length, font, font_length);
    return cut_length;
}

#ifndef NO_HARFBUZZ
static hb_face_t *ready;

static size_t cut_without_layout(hb_face_t *face)
{
    static const char dropped[][5] = {"GSUB", "GPOS", "GDEF", "kern"};
    hb_subset_input_t *input = input_of_ranges();
    for (size_t at = 0; at < sizeof dropped / sizeof dropped[0]; at++)
        hb_set_add(hb_subset_input_set(input, HB_SUBSET_SETS_DROP_TABLE_TAG), hb_tag_from_string(dropped[at], 4));
    return cut_face(face, input);
}

static size_t call_hb(void)
{
    hb_face_t *face = face_of_font();
    size_t size = cut_without_layout(face);
    hb_face_destroy(face);
    return size;
}

static size_t call_kept(void)
{
    return cut_without_layout(ready);
}
#endif

static way ways[] = {
    {.name = "cut", .call = call_cut, .parts = 1},
    {.name = "lean", .call = call_lean, .parts = 1},
    {.name = "checked", .call = call_checked, .parts = 1},
#ifndef NO_HARFBUZZ
    {.name = "hb", .call = call_hb, .parts = 1},
    {.name = "kept", .call = call_kept, .parts = 1},
#endif
    {.name = "copy", .call = call_copy, .parts = 1},
};

int main(int count, char **words)
{
    if (count != 5)
        return 1;
    read_font(words[1]);
    read_ranges(words[2]);
    get_room(2 * font_length + MORE);
#ifndef NO_HARFBUZZ
    ready = ready_face();
#endif
    cut_length = call_cut();
    time_ways(ways, sizeof ways / sizeof ways[0], words[3], words[4]);
    return 0;
}
