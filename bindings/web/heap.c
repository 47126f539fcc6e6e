/* The heap of the modules for browsers: rattle_alloc, rattle_realloc and rattle_dealloc, which the toolchain's own object
 * has over malloc, for a module that has no C library; and four exports for the page that calls the module.
 *
 * A block is a head of 16 bytes and what is given out, a multiple of 16 bytes. Blocks lie end to end from __heap_base
 * to the end of the memory, where a head alone stands that is never free. No two free blocks touch. A block is given
 * out of the first free one that has room, or of new pages. Every address that is given out is a multiple of 16, and
 * neither 0 nor next to that of another block, for a head lies between them. */
typedef __SIZE_TYPE__ size_t;

struct block {
    size_t before; /* how long the block before it is, with its head; 0 for the first */
    size_t length; /* how long it is, with its head; 1 more where it is given out */
    struct block *next, *last; /* of a free one: its neighbours in the ring of free ones */
};

/* What the two calls answer: the first byte says whether there is memory. */
struct tried {
    size_t ok;
    void *p;
};

enum { HEAD = 16, LEAST = 32, PAGE = 65536 };
/* No 32-bit memory has more, and memory.grow is lowered to 32 bits: of more bytes it might lose the high ones. */
#define MOST_BYTES ((size_t)1 << 32)

extern unsigned char __heap_base[];
static struct block ring = {0, 1, &ring, &ring};
static struct block *end;
static size_t most = ~(size_t)0, in_use;
static char nothing[16] __attribute__((aligned(16)));

static size_t length_of(const struct block *b) { return b->length & ~(size_t)1; }
static int is_free(const struct block *b) { return !(b->length & 1); }
static struct block *at(const void *p, __PTRDIFF_TYPE__ offset) { return (struct block *)((char *)p + offset); }
static struct block *after(const struct block *b) { return at(b, length_of(b)); }
static struct block *block_of(const void *p) { return (struct block *)((char *)p - HEAD); }
static size_t memory_length(void) { return __builtin_wasm_memory_size(0) * PAGE; }

static void leave_ring(struct block *b) {
    b->last->next = b->next;
    b->next->last = b->last;
}

/* Makes of the bytes at b a free block, joined to each free one that it touches. */
static struct block *set_free(struct block *b, size_t length) {
    struct block *behind = at(b, length);
    if (is_free(behind)) {
        leave_ring(behind);
        length += behind->length;
    }
    if (b->before && is_free(at(b, -b->before))) {
        b = at(b, -b->before);
        leave_ring(b);
        length += b->length;
    }
    b->length = length;
    at(b, length)->before = length;
    b->next = ring.next;
    b->last = &ring;
    b->next->last = ring.next = b;
    return b;
}

/* Keeps of a block that is given out the first bytes, and frees the others where they are a block. */
static void keep_front(struct block *b, size_t length) {
    size_t whole = length_of(b);
    if (whole - length < LEAST) {
        length = whole;
    }
    b->length = length | 1;
    at(b, length)->before = length;
    if (length < whole) {
        set_free(at(b, length), whole - length);
    }
}

static int begin(void) {
    size_t first = ((size_t)__heap_base + 15) & ~(size_t)15, last = memory_length();
    if (last < first + LEAST + HEAD) {
        size_t pages = 1 + (first + LEAST + HEAD - last) / PAGE;
        if ((unsigned)__builtin_wasm_memory_grow(0, pages) == ~0u) {
            return 0;
        }
        last = memory_length();
    }
    struct block *b = (struct block *)first;
    end = (struct block *)(last - HEAD);
    end->length = 1;
    b->before = 0;
    set_free(b, last - HEAD - first);
    return 1;
}

/* Asks the host for pages, so that the free block at the end of the memory has the length. */
static struct block *grow(size_t length) {
    size_t has = end->before && is_free(at(end, -end->before)) ? end->before : 0, size = memory_length();
    size_t pages = (length - has + PAGE - 1) / PAGE;
    /* The low half of the answer is looked at alone: a module that is lowered to 32 bits may lose the other one. */
    if (pages > (most - size) / PAGE || size > most || (unsigned)__builtin_wasm_memory_grow(0, pages) == ~0u) {
        return 0;
    }
    struct block *b = end;
    end = (struct block *)(memory_length() - HEAD);
    end->length = 1;
    return set_free(b, (char *)end - (char *)b);
}

/* The length of a block for so many bytes, with its head, or 0 where there is no such block. */
static size_t rounded(size_t n) {
    if (n > MOST_BYTES) {
        return 0;
    }
    n = (n + HEAD + 15) & ~(size_t)15;
    return n < LEAST ? LEAST : n;
}

static void *allocate(size_t n) {
    size_t length = rounded(n);
    struct block *b;
    if (!length || (!end && !begin())) {
        return 0;
    }
    for (b = ring.next; b != &ring && b->length < length; b = b->next) {
    }
    if (b == &ring && !(b = grow(length))) {
        return 0;
    }
    leave_ring(b);
    keep_front(b, length);
    in_use += length_of(b);
    return (char *)b + HEAD;
}

static void release(void *p) {
    struct block *b = block_of(p);
    in_use -= length_of(b);
    set_free(b, length_of(b));
}

/* Makes a block longer or shorter where it stands, if it can. */
static int resize(struct block *b, size_t length) {
    size_t had = length_of(b);
    struct block *behind = after(b);
    if (had < length) {
        size_t has = is_free(behind) ? behind->length : 0;
        if (had + has < length) {
            if (at(behind, has) != end || !(behind = grow(length - had))) {
                return 0;
            }
        }
        leave_ring(behind);
        b->length = (had + behind->length) | 1;
    }
    keep_front(b, length);
    in_use += length_of(b) - had;
    return 1;
}

struct tried rattle_alloc(size_t n, size_t align) {
    void *p = align > HEAD ? 0 : allocate(n ? n : align);
    return p ? (struct tried){1, p} : (struct tried){0, nothing};
}

struct tried rattle_realloc(void *p, size_t kept, size_t n, size_t align) {
    size_t length = align > HEAD ? 0 : rounded(n ? n : align);
    if (!length) {
        return (struct tried){0, nothing};
    }
    if (resize(block_of(p), length)) {
        return (struct tried){1, p};
    }
    void *moved = allocate(n ? n : align);
    if (!moved) {
        return (struct tried){0, nothing};
    }
    __builtin_memcpy(moved, p, kept < n ? kept : n);
    release(p);
    return (struct tried){1, moved};
}

void rattle_dealloc(void *p) { release(p); }

/* For the page: room of so many bytes, or 0; what gives it back; a limit for the memory, in bytes; and how many
 * bytes are given out now. */
__attribute__((export_name("fontcut_alloc"))) void *fontcut_alloc(size_t n) { return allocate(n); }
__attribute__((export_name("fontcut_free"))) void fontcut_free(void *p) { release(p); }
__attribute__((export_name("fontcut_limit"))) void fontcut_limit(size_t bytes) { most = bytes; }
__attribute__((export_name("fontcut_in_use"))) size_t fontcut_in_use(void) { return in_use; }
