/* Ways to do something in memory that are called in turn in one process: the font and the wanted ranges that all of
   them take, what a call takes and the memory that it holds, and HarfBuzz's subsetter over the same font.

   A program that includes this is linked with --wrap=malloc,--wrap=realloc,--wrap=free, and compiled with
   -DNO_HARFBUZZ where HarfBuzz is not there. */
#ifndef IN_MEMORY_H
#define IN_MEMORY_H

#include <malloc.h>
#include <stdint.h>
#include <stdio.h>
#include <stdlib.h>
#include <time.h>

#ifndef NO_HARFBUZZ
#include <hb-subset.h>
#endif

#include "copy_and_sum.h"
#include "fontcut.h"

enum { RANGES = 65536, CALLS = 20000, MORE = 1 << 20 };

typedef struct way {
    const char *name;
    size_t (*call)(void); /* returns the bytes that it made, or another number above 0, or 0 where it failed */
    int parts;            /* how many times a call does what is timed */
    size_t size;
    size_t most_held;
    int has_failed;
    int calls;
    int64_t total;
    int64_t times[CALLS];
} way;

static unsigned char *font, *room;
static size_t font_length, room_length;
static fontcut_range ranges[RANGES];
static size_t range_count;

/* Of one call the bytes that are held of malloc now, and the most that were held at once. */
static int is_counted;
static size_t held, most_held;

void *__real_malloc(size_t size);
void *__real_realloc(void *at, size_t size);
void __real_free(void *at);
void *__wrap_malloc(size_t size);
void *__wrap_realloc(void *at, size_t size);
void __wrap_free(void *at);

static void *counted(void *at, size_t before)
{
    if (is_counted && at != NULL) {
        held += malloc_usable_size(at) - before;
        most_held = held > most_held ? held : most_held;
    }
    return at;
}

void *__wrap_malloc(size_t size)
{
    return counted(__real_malloc(size), 0);
}

void *__wrap_realloc(void *at, size_t size)
{
    size_t before = is_counted ? malloc_usable_size(at) : 0;
    return counted(__real_realloc(at, size), before);
}

void __wrap_free(void *at)
{
    if (is_counted)
        held -= malloc_usable_size(at);
    __real_free(at);
}

static unsigned char *got(size_t bytes)
{
    unsigned char *at = malloc(bytes);
    if (at == NULL)
        exit(3);
    return at;
}

static void read_font(const char *path)
{
    font = read_file(path, &font_length);
    if (font == NULL || font_length == 0)
        exit(3);
}

/* Reads a file with a line FIRST-LAST in hexadecimal digits for each range. */
static void read_ranges(const char *path)
{
    FILE *from = fopen(path, "r");
    unsigned first, last;
    if (from == NULL)
        exit(3);
    for (; range_count < RANGES && fscanf(from, "%x-%x", &first, &last) == 2; range_count++) {
        ranges[range_count].first = first;
        ranges[range_count].last = last;
    }
    fclose(from);
}

/* Gets the room that cuts are written to. */
static void get_room(size_t bytes)
{
    room_length = bytes;
    room = got(room_length + 4);
}

/* A request for the wanted ranges, with flags. */
static fontcut_request request_of(fontcut_kind kind, uint32_t flags)
{
    return (fontcut_request){sizeof(fontcut_request), kind, FONTCUT_CLOSES | flags, ranges, range_count, NULL, 0};
}

/* The cut for them in the room: how many bytes it has, or 0 where there is none. */
static size_t cut_into_room(fontcut_kind kind, uint32_t flags)
{
    fontcut_request request = request_of(kind, flags);
    fontcut_answer answer = fontcut_subset(&request, font, font_length, room, room_length);
    return answer.status == FONTCUT_DONE ? (size_t)answer.size : 0;
}

#ifndef NO_HARFBUZZ
static hb_face_t *face_of_font(void)
{
    hb_blob_t *blob = hb_blob_create((const char *)font, (unsigned)font_length, HB_MEMORY_MODE_READONLY, NULL, NULL);
    hb_face_t *face = hb_face_create(blob, 0);
    hb_blob_destroy(blob);
    return face;
}

/* The face of the font that is kept between calls, made ready for the subsetter. */
static hb_face_t *ready_face(void)
{
    hb_face_t *face = face_of_font();
    hb_face_t *ready = hb_subset_preprocess(face);
    hb_face_destroy(face);
    return ready;
}

/* An input that keeps glyph numbers, with the wanted ranges. */
static hb_subset_input_t *input_of_ranges(void)
{
    hb_subset_input_t *input = hb_subset_input_create_or_fail();
    if (input == NULL)
        exit(3);
    hb_subset_input_set_flags(input, HB_SUBSET_FLAGS_RETAIN_GIDS);
    for (size_t at = 0; at < range_count; at++)
        hb_set_add_range(hb_subset_input_unicode_set(input), ranges[at].first, ranges[at].last);
    return input;
}

/* Cuts a face by an input, which goes, and returns the bytes of what it makes. */
static size_t cut_face(hb_face_t *face, hb_subset_input_t *input)
{
    hb_face_t *made = hb_subset_or_fail(face, input);
    size_t size = 0;
    if (made != NULL) {
        hb_blob_t *blob = hb_face_reference_blob(made);
        size = hb_blob_get_length(blob);
        hb_blob_destroy(blob);
        hb_face_destroy(made);
    }
    hb_subset_input_destroy(input);
    return size;
}
#endif

static int64_t now(void)
{
    struct timespec time;
    clock_gettime(CLOCK_MONOTONIC, &time);
    return (int64_t)time.tv_sec * 1000000000 + time.tv_nsec;
}

static void call(way *one)
{
    int64_t begin = now();
    one->size = one->call();
    int64_t took = now() - begin;
    one->times[one->calls++] = took;
    one->total += took;
}

static void count_memory(way *one)
{
    is_counted = 1;
    held = most_held = 0;
    one->call();
    is_counted = 0;
    one->most_held = most_held;
}

static int ascending(const void *first, const void *second)
{
    int64_t one = *(const int64_t *)first, other = *(const int64_t *)second;
    return (one > other) - (one < other);
}

static void say(way *one)
{
    if (one->has_failed)
        return;
    qsort(one->times, (size_t)one->calls, sizeof one->times[0], ascending);
    printf("%s %zu %lld %lld %d %zu\n", one->name, one->size, (long long)one->times[0] / one->parts,
           (long long)one->times[one->calls / 2] / one->parts, one->calls, one->most_held);
}

/* Calls the ways in turn, until each has had its time and the least number of calls. */
static void call_in_turn(way *ways, int count, int64_t enough, int least)
{
    int called = 1;
    while (called) {
        called = 0;
        for (int at = 0; at < count; at++) {
            way *one = &ways[at];
            if (!one->has_failed && one->calls < CALLS && (one->calls < least || one->total < enough)) {
                call(one);
                called = 1;
            }
        }
    }
}

/* Times the ways, each for so many milliseconds in all and so many calls at least, and prints a line for each that does
   not fail: its name, the bytes that it makes, the least and the median nanoseconds of what is timed, the number of
   calls, and the most bytes that a call of the library held of malloc at once, which is counted over one more call.
   HarfBuzz is another library, of which nothing is counted. */
static void time_ways(way *ways, int count, const char *milliseconds, const char *least)
{
    for (int at = 0; at < count; at++) /* the first call of each finds memory that nobody had, and is not timed */
        ways[at].has_failed = ways[at].call() == 0;
    call_in_turn(ways, count, atoll(milliseconds) * 1000000, atoi(least));
    for (int at = 0; at < count; at++) {
        if (!ways[at].has_failed)
            count_memory(&ways[at]);
        say(&ways[at]);
    }
}

#endif
