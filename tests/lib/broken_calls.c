/* Calls of the library that go wrong for cuts of one kind, each in a way that laws.c has to see. It is linked with
 * --wrap for each of these calls, and the variables BROKEN_KIND and BROKEN say for which kind, and what goes wrong. */
#include "fontcut.h"

#include <stdlib.h>

enum { NOTHING, SHORT_SET, LEAN_CUT, SHORT_JOIN, YES };

fontcut_answer __real_fontcut_subset(const fontcut_request *request, const uint8_t *font, size_t font_length,
                                     uint8_t *out, size_t room);
fontcut_answer __real_fontcut_belongs(uint32_t kind, const uint8_t *cut, size_t cut_length, const uint8_t *font,
                                      size_t font_length);
fontcut_answer __real_fontcut_join(uint32_t kind, const fontcut_bytes *files, size_t file_count, uint8_t *out,
                                   size_t room);

static int broken(uint32_t kind)
{
    const char *word = getenv("BROKEN"), *of = getenv("BROKEN_KIND");
    return word && of && kind == (uint32_t)atoi(of) ? atoi(word) : NOTHING;
}

static size_t less(size_t count, int is_less)
{
    return count > 1 && is_less ? count - 1 : count;
}

fontcut_answer __wrap_fontcut_subset(const fontcut_request *request, const uint8_t *font, size_t font_length,
                                     uint8_t *out, size_t room)
{
    fontcut_request made = *request;
    if (broken(request->kind) == LEAN_CUT)
        made.kind = FONTCUT_LEAN;
    made.range_count = less(request->range_count, broken(request->kind) == SHORT_SET);
    return __real_fontcut_subset(&made, font, font_length, out, room);
}

fontcut_answer __wrap_fontcut_belongs(uint32_t kind, const uint8_t *cut, size_t cut_length, const uint8_t *font,
                                      size_t font_length)
{
    fontcut_answer answer = __real_fontcut_belongs(kind, cut, cut_length, font, font_length);
    if (answer.status == FONTCUT_DONE && broken(kind) == YES)
        answer.detail = 1;
    return answer;
}

fontcut_answer __wrap_fontcut_join(uint32_t kind, const fontcut_bytes *files, size_t file_count, uint8_t *out,
                                   size_t room)
{
    return __real_fontcut_join(kind, files, less(file_count, broken(kind) == SHORT_JOIN), out, room);
}
