/* Random calls of the heap of fontcut.wasm (bindings/web/heap.c), compiled for this machine over an area that stands
 * for the module's memory: each block keeps its bytes, no two overlap, all is free at the end, and what is refused
 * leaves all as it was. */
#include <assert.h>
#include <stdint.h>
#include <stdio.h>
#include <string.h>

enum { CALLS = 100000, BLOCKS = 300, MOST_PAGES = 1200, PAGE_BYTES = 65536 };
static unsigned char heap_area[MOST_PAGES * (size_t)PAGE_BYTES] __attribute__((aligned(65536)));
static size_t pages = 2;

/* The memory of a module begins at the address 0, and this one at that of its area. */
static size_t first_page(void) { return (uintptr_t)heap_area / PAGE_BYTES; }
static size_t size_in_pages(void) { return first_page() + pages; }
static size_t grow_by(size_t more) {
    size_t had = size_in_pages();
    more = (uint32_t)more; /* as the module has it, once it is lowered to 32 bits */
    if (more > MOST_PAGES - pages) {
        return (size_t)-1;
    }
    pages += more;
    return had;
}

#define __heap_base heap_area
#define extern static
#define __builtin_wasm_memory_size(memory) size_in_pages()
#define __builtin_wasm_memory_grow(memory, more) grow_by(more)
#include "heap.c"
#undef extern

static struct {
    unsigned char *at;
    size_t length;
    unsigned char mark;
} held[BLOCKS];

static uint64_t seed = 88172645463325252u;
static uint64_t next(void) {
    seed ^= seed << 13;
    seed ^= seed >> 7;
    seed ^= seed << 17;
    return seed;
}

static size_t some_length(void) {
    return next() % 3 ? next() % 200 : next() % 5 ? next() % 20000 : next() % 3000000;
}

static void is_marked(const unsigned char *at, size_t length, unsigned char mark) {
    for (size_t i = 0; i < length; i++) {
        assert(at[i] == mark);
    }
}

/* Keeps what was given out, with bytes of its own. */
static void take(int i, struct tried got, size_t length) {
    assert((uintptr_t)got.p % 16 == 0);
    held[i].at = got.p;
    held[i].length = length;
    held[i].mark = (unsigned char)next();
    memset(got.p, held[i].mark, length);
}

/* The blocks lie end to end, no two free ones touch, and the ring has just the free ones. */
static void is_sound(void) {
    size_t free_blocks = 0, used = 0, before = 0;
    int was_free = 0;
    for (struct block *b = (struct block *)heap_area; end && b != end; b = after(b)) {
        assert(b->before == before && length_of(b) >= LEAST && length_of(b) % 16 == 0);
        assert(!(was_free && is_free(b)));
        was_free = is_free(b);
        free_blocks += was_free;
        used += was_free ? 0 : length_of(b);
        before = length_of(b);
    }
    assert(!end || (end->before == before && (size_t)((unsigned char *)end - heap_area) == pages * PAGE - HEAD));
    for (struct block *b = ring.next; b != &ring; b = b->next) {
        assert(is_free(b) && b->next->last == b);
        free_blocks--;
    }
    assert(free_blocks == 0 && used == in_use);
}

static size_t refused, moved;

static void one_alloc(int i) {
    size_t length = some_length();
    struct tried got = rattle_alloc(length, 8);
    if (got.ok) {
        take(i, got, length);
    } else {
        refused++;
    }
}

static void one_realloc(int i) {
    size_t length = some_length(), kept = held[i].length < length ? held[i].length : length;
    kept = next() % 4 ? kept : kept / 2;
    struct tried got = rattle_realloc(held[i].at, kept, length, 8);
    if (got.ok) {
        moved += got.p != held[i].at;
        is_marked(got.p, kept, held[i].mark);
        take(i, got, length);
    } else {
        refused++;
        is_marked(held[i].at, held[i].length, held[i].mark);
    }
}

static void one_dealloc(int i) {
    is_marked(held[i].at, held[i].length, held[i].mark);
    rattle_dealloc(held[i].at);
    held[i].at = 0;
}

/* What no memory can have is refused, and so is an alignment that no block has. */
static void refuses(void) {
    fontcut_limit((size_t)-1);
    /* The last needs 2^32 pages beside the free block at the end, of which 32 bits have none. */
    size_t lengths[] = {(size_t)-1, (size_t)1 << 61, ((size_t)1 << 32) + 1, ((size_t)1 << 48) + end->before - 4096};
    for (size_t i = 0; i < sizeof lengths / sizeof *lengths; i++) {
        assert(!rattle_alloc(lengths[i], 1).ok && !fontcut_alloc(lengths[i]));
    }
    assert(!rattle_alloc(8, 32).ok);
    is_sound();
}

int main(void) {
    for (long call = 0; call < CALLS; call++) {
        int i = (int)(next() % BLOCKS);
        if (!held[i].at) {
            one_alloc(i);
        } else if (next() % 2) {
            one_dealloc(i);
        } else {
            one_realloc(i);
        }
        if (call % 64 == 0) {
            is_sound();
        }
        if (call == CALLS / 2) {
            fontcut_limit(size_in_pages() * PAGE);
        }
    }
    for (int i = 0; i < BLOCKS; i++) {
        if (held[i].at) {
            one_dealloc(i);
        }
    }
    is_sound();
    assert(fontcut_in_use() == 0 && ring.next->next == &ring && refused && moved);
    refuses();
    printf("%d calls, %zu refused, %zu moved\n", CALLS, refused, moved);
    return 0;
}
