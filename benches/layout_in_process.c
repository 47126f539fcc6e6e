/* Times five ways to the bytes of a layout cut, all in memory and in one process, in turn:

       layout  fontcut_subset of the layout kind, into a room that is kept
       checked the same with FONTCUT_CHECKED, of a font that was accepted before; each call reads its GSUB
       cuts    one of the cuts that a call of fontcut_subsets makes: the font is opened once for all of them, which are
               for the same ranges
       hb      hb_subset_or_fail, and the blob of what it makes, with all features of layout; the face is made for each
               call
       kept    the same of a face that was made once, and made ready by hb_subset_preprocess

   Words: the font, a file of ranges, the milliseconds that each way is given in all, and the least number of its calls.
   What is printed is said in in_memory.h; the bytes of `cuts` are those of all its cuts.

   HarfBuzz keeps glyph numbers and hints. A way that fails is left out, and so is HarfBuzz where it is not there. */
#include "in_memory.h"

enum { CUTS = 64 };

static uint64_t sizes[CUTS];

static size_t call_layout(void)
{
    return cut_into_room(FONTCUT_LAYOUT, 0);
}

static size_t call_checked(void)
{
    return cut_into_room(FONTCUT_LAYOUT, FONTCUT_CHECKED);
}

static size_t call_cuts(void)
{
    fontcut_request requests[CUTS];
    for (int at = 0; at < CUTS; at++)
        requests[at] = request_of(FONTCUT_LAYOUT, 0);
    fontcut_answer answer = fontcut_subsets(requests, CUTS, font, font_length, room, room_length, sizes, CUTS);
    return answer.status == FONTCUT_DONE ? (size_t)answer.size : 0;
}

#ifndef NO_HARFBUZZ
static hb_face_t *ready;

static size_t cut_with_layout(hb_face_t *face)
{
    hb_subset_input_t *input = input_of_ranges();
    hb_set_t *features = hb_subset_input_set(input, HB_SUBSET_SETS_LAYOUT_FEATURE_TAG);
    hb_set_clear(features);
    hb_set_invert(features);
    return cut_face(face, input);
}

static size_t call_hb(void)
{
    hb_face_t *face = face_of_font();
    size_t size = cut_with_layout(face);
    hb_face_destroy(face);
    return size;
}

static size_t call_kept(void)
{
    return cut_with_layout(ready);
}
#endif

static way ways[] = {
    {.name = "layout", .call = call_layout, .parts = 1},
    {.name = "checked", .call = call_checked, .parts = 1},
    {.name = "cuts", .call = call_cuts, .parts = CUTS},
#ifndef NO_HARFBUZZ
    {.name = "hb", .call = call_hb, .parts = 1},
    {.name = "kept", .call = call_kept, .parts = 1},
#endif
};

int main(int count, char **words)
{
    if (count != 5)
        return 1;
    read_font(words[1]);
    read_ranges(words[2]);
    get_room(2 * font_length + MORE);
    size_t size = call_layout();
    if (size > room_length / CUTS) {
        free(room);
        get_room(CUTS * size);
    }
#ifndef NO_HARFBUZZ
    ready = ready_face();
#endif
    time_ways(ways, sizeof ways / sizeof ways[0], words[3], words[4]);
    return 0;
}
