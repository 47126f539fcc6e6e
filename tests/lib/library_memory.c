/* Does each call of fontcut.h again and again, while the first, the second, .. request for memory is refused, and
 * prints for each call how many requests it makes, and how many bytes of stack it takes. Words: a font, and a cut of it
 * of each kind. It is linked with --wrap=malloc,--wrap=realloc. The status is 0 where each refused request was answered
 * by FONTCUT_NO_MEMORY and left the room as it was. */
#define _XOPEN_SOURCE 700
#include "fontcut.h"

#include <pthread.h>
#include <stdio.h>
#include <stdlib.h>
#include <string.h>

enum { ROOM = 4 * 1024 * 1024, STACK = 1024 * 1024, SETS = 3, KINDS = 4, FILL = 0xA5, MOST = 1000 };

void *__real_malloc(size_t size);
void *__real_realloc(void *at, size_t size);
void *__wrap_malloc(size_t size);
void *__wrap_realloc(void *at, size_t size);

/* How many requests are granted before one is refused; below 0 where none is. */
static long left = -1;

static int is_refused(void)
{
    return left >= 0 && left-- == 0;
}

void *__wrap_malloc(size_t size)
{
    return is_refused() ? NULL : __real_malloc(size);
}

void *__wrap_realloc(void *at, size_t size)
{
    return is_refused() ? NULL : __real_realloc(at, size);
}

static uint8_t room[ROOM];
static uint64_t sizes[SETS];
static fontcut_bytes files[1 + KINDS]; /* a font, and a cut of it of each kind, in the order of their numbers */

static const fontcut_range RANGES[] = {{0x41, 0x43}, {0x61, 0x61}, {0x100, 0x200}};

static const uint32_t CODES[] = {0x41, 0x62, 0x10FFFF};

static const uint16_t GLYPHS[] = {2, 0, 1};

static const char TEXT[] = "e\314\201\n(\330\250 \352\260\201", LIST[] = "U+41-43, 61; U+1??";

/* A and B, each with a selector of variations. */
static const char VARIED[] = "A\357\270\200B\363\240\204\200";

/* The calls that take a kind, of which each is made for all kinds, and then those that take none. */
#define OF_KINDS_OF(name) name, "lean_" name, "layout_" name, "variable_" name
static const char *const NAMES[] = {
    OF_KINDS_OF("subset"),         OF_KINDS_OF("subset_of_glyphs"), OF_KINDS_OF("checked_subset"),
    OF_KINDS_OF("closed_subset"),  OF_KINDS_OF("subsets"),          OF_KINDS_OF("closed_subsets"),
    OF_KINDS_OF("closure"),        OF_KINDS_OF("kept"),             OF_KINDS_OF("belongs"),
    OF_KINDS_OF("cut_form"),       OF_KINDS_OF("join"),
    "codes", "check", "glyphs", "metrics", "info", "refusal_text", "checked_glyphs", "checked_metrics", "needed",
    "ranges", "variants", "lost",
};
enum { CALLS = sizeof NAMES / sizeof *NAMES, BY_REQUEST = 6 * KINDS, OF_KINDS = 11 * KINDS };

/* A call that cuts, of a kind: full cuts are for no glyph. */
static fontcut_answer do_call_by_request(int call)
{
    static const uint32_t flags[] = {FONTCUT_CLOSES, 0, FONTCUT_CHECKED, FONTCUT_CLOSES, 0, FONTCUT_CLOSES};
    const uint32_t kind = (uint32_t)(call % KINDS);
    const fontcut_bytes font = files[0];
    fontcut_request requests[SETS];
    int number = call / KINDS, i;
    for (i = 0; i < SETS; i++) {
        const fontcut_request made = {sizeof made, kind, flags[number], RANGES, i == 1 ? 0 : 3, GLYPHS,
                                      kind == FONTCUT_FULL || number == 0 || i == 2 ? 0 : 3};
        requests[i] = made;
    }
    if (number < 4)
        return fontcut_subset(requests, font.at, font.length, room, ROOM);
    return fontcut_subsets(requests, SETS, font.at, font.length, room, ROOM, sizes, SETS);
}

/* Another call of a kind, over a cut of that kind. */
static fontcut_answer do_call_of_kind(int call)
{
    const uint32_t kind = (uint32_t)(call % KINDS);
    const fontcut_bytes font = files[0], cut = files[1 + kind];
    const fontcut_request wanted = {sizeof wanted, kind, 0, RANGES, 3, GLYPHS, kind == FONTCUT_FULL ? 0 : 3};
    uint16_t *numbers = (uint16_t *)(void *)room;
    fontcut_bytes cuts[2];
    cuts[0] = cuts[1] = cut;
    switch (call / KINDS) {
    case 0:
        return fontcut_closure(&wanted, font.at, font.length, numbers, ROOM / sizeof(uint16_t));
    case 1:
        return fontcut_kept(kind, font.at, font.length, numbers, ROOM / sizeof(uint16_t));
    case 2:
        return fontcut_belongs(kind, cut.at, cut.length, font.at, font.length);
    case 3:
        return fontcut_cut_form(kind, cut.at, cut.length);
    default:
        return fontcut_join(kind, cuts, 2, room, ROOM);
    }
}

static fontcut_answer do_call(int call)
{
    const fontcut_bytes font = files[0];
    const fontcut_answer told = {FONTCUT_BAD_GLYPH, 7, 0, 0};
    const fontcut_request wanted = {sizeof wanted, FONTCUT_LEAN, 0, RANGES, 3, GLYPHS, 3};
    const uint32_t flags = call - OF_KINDS < 6 ? 0 : FONTCUT_CHECKED;
    fontcut_range *ranges = (fontcut_range *)(void *)room;
    if (call < BY_REQUEST)
        return do_call_by_request(call);
    if (call < OF_KINDS)
        return do_call_of_kind(call - BY_REQUEST);
    switch (call - OF_KINDS) {
    case 0:
        return fontcut_codes(font.at, font.length, ranges, ROOM / sizeof *ranges);
    case 1:
        return fontcut_check(font.at, font.length);
    case 2:
    case 6:
        return fontcut_glyphs(flags, font.at, font.length, CODES, 3, (uint16_t *)(void *)room, ROOM / sizeof(uint16_t));
    case 3:
    case 7:
        return fontcut_metrics(flags, font.at, font.length, GLYPHS, 3, (fontcut_metric *)(void *)room,
                               ROOM / sizeof(fontcut_metric));
    case 4:
        return fontcut_info(font.at, font.length, (fontcut_font_info *)(void *)room);
    case 5:
        return fontcut_refusal_text(told, room, ROOM);
    case 8:
        return fontcut_needed((const uint8_t *)TEXT, sizeof TEXT - 1, ranges, ROOM / sizeof *ranges);
    case 9:
        return fontcut_ranges((const uint8_t *)LIST, sizeof LIST - 1, ranges, ROOM / sizeof *ranges);
    case 10:
        return fontcut_variants(flags, font.at, font.length, (const uint8_t *)VARIED, sizeof VARIED - 1,
                                (uint16_t *)(void *)room, ROOM / sizeof(uint16_t));
    default:
        return fontcut_lost(&wanted, font.at, font.length, (fontcut_losses *)(void *)room);
    }
}

static fontcut_bytes read_file(const char *path)
{
    fontcut_bytes read = {NULL, 0};
    FILE *from = fopen(path, "rb");
    uint8_t *at;
    if (!from || fseek(from, 0, SEEK_END))
        exit(3);
    read.length = (size_t)ftell(from);
    rewind(from);
    at = (uint8_t *)malloc(read.length);
    if (!at || fread(at, 1, read.length, from) != read.length)
        exit(3);
    fclose(from);
    read.at = at;
    return read;
}

static uint8_t stack[STACK] __attribute__((aligned(64)));

static void *done_on_stack(void *call)
{
    if (call)
        do_call(*(const int *)call);
    return NULL;
}

/* The bytes of a stack that are not as they were when a call is done on it; without a call, those of the thread. */
static size_t changed_stack(int *call)
{
    pthread_attr_t attributes;
    pthread_t thread;
    size_t i = 0;
    memset(stack, FILL, STACK);
    if (pthread_attr_init(&attributes) || pthread_attr_setstack(&attributes, stack, STACK) ||
        pthread_create(&thread, &attributes, done_on_stack, call) || pthread_join(thread, NULL) ||
        pthread_attr_destroy(&attributes))
        exit(3);
    while (i < STACK && stack[i] == FILL)
        i++;
    return STACK - i;
}

static int is_untouched(void)
{
    size_t i;
    for (i = 0; i < ROOM; i++)
        if (room[i] != FILL)
            return 0;
    for (i = 0; i < sizeof sizes; i++)
        if (((const uint8_t *)sizes)[i] != FILL)
            return 0;
    return 1;
}

int main(int count, char **words)
{
    int call, file, status = count == 2 + KINDS ? 0 : 2;
    long request;
    if (status)
        return status;
    for (file = 0; file <= KINDS; file++)
        files[file] = read_file(words[1 + file]);
    for (call = 0; call < (int)CALLS; call++) {
        for (request = 0; request < MOST; request++) {
            fontcut_answer answer;
            memset(room, FILL, ROOM);
            memset(sizes, FILL, sizeof sizes);
            left = request;
            answer = do_call(call);
            left = -1;
            if (answer.status == FONTCUT_DONE)
                break;
            if (answer.status != FONTCUT_NO_MEMORY || !is_untouched()) {
                printf("%s: request %ld refused: status %u\n", NAMES[call], request, (unsigned)answer.status);
                status = 1;
            }
        }
        printf("%s %ld %zu\n", NAMES[call], request, changed_stack(&call) - changed_stack(NULL));
    }
    for (file = 0; file <= KINDS; file++)
        free((void *)files[file].at);
    return status;
}
