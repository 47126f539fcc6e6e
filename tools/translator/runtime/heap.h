/* The heap, over malloc, realloc and free.
 *
 * The contracts in the toolchain's crate `libc` (`src/heap.rt`, in the words of `specs/Heap.antt`) say what each has to
 * do. Every proof takes that for granted, and nothing proves that this file does it. The parameter `memory` of the
 * contracts has no bytes, so C is not passed it. */

/* No contract allows an alignment above 16, and malloc aligns every block for the widest type of C. On macOS no type is
 * that wide, and its manual page malloc(3) promises 16 all the same. */
#ifndef __APPLE__
_Static_assert(alignof(max_align_t) % 16 == 0, "malloc aligns too little");
#endif

/* The struct `Tried` of the contracts as LLVM has it: whether there is memory, and the pointer to it. */
typedef struct MAY_ALIAS u64_u64 { u64 _0; u64 _1; } u64_u64, u64_u64_at;

/* A pointer of Rattle is never null, so where there is no memory it points here. */
static u8 nothing;

/* A compiler may leave out a block that is freed and never read, as if it were always there. The empty instruction may
 * read it, so that each block is asked for, as in the kit's build, and can be refused. */
static inline u64_u64 tried(void *p) {
    __asm__ volatile("" : "+r"(p) : : "memory");
    return (u64_u64){p != NULL, (u64)(p != NULL ? p : &nothing)};
}

/* A block of 0 bytes is one that can be freed. For that size malloc may return NULL, and realloc frees the block. */
static inline u64 some(u64 size, u64 align) {
    return size != 0 ? size : align;
}

static inline u64_u64 sys_rattle_alloc(u64 size, u64 align) {
    return tried(malloc(some(size, align)));
}

/* realloc keeps as many bytes as fit in both blocks, and `kept` is never more. */
static inline u64_u64 sys_rattle_realloc(u8 *p, u64 kept, u64 size, u64 align) {
    (void)kept;
    return tried(realloc(p, some(size, align)));
}

static inline void sys_rattle_dealloc(u8 *p) {
    free(p);
}
