/* Vectors, by the extension of GCC and Clang. Truths are 0 or have each bit, in numbers that together have 128 bits. */
#define VECTOR(bits, count) \
    typedef u##bits u##bits##x##count __attribute__((vector_size(bits * count / 8))); \
    typedef i##bits i##bits##x##count __attribute__((vector_size(bits * count / 8))); \
    typedef u##bits##x##count MAY_ALIAS u##bits##x##count##_at;
VECTOR(8, 2)
VECTOR(8, 4)
VECTOR(8, 8)
VECTOR(8, 16)
VECTOR(16, 8)
VECTOR(32, 2)
VECTOR(32, 4)
VECTOR(64, 2)
VECTOR(64, 4)
typedef u8x16_at UNALIGNED(1) u8x16_1_at;

/* A bit for each truth. */
static ALWAYSINLINE u16 bits_u8x16(u8x16 truths) {
#ifdef __SSE2__
    return (u16)__builtin_ia32_pmovmskb128((char __attribute__((vector_size(16))))truths);
#else
    u64 half[2];
    memcpy(half, &truths, sizeof half);
    half[0] = (half[0] & 0x8040201008040201u) * 0x101010101010101u >> 56;
    half[1] = (half[1] & 0x8040201008040201u) * 0x101010101010101u >> 56;
    return (u16)(half[0] | half[1] << 8);
#endif
}
static ALWAYSINLINE u8 bits_u16x8(u16x8 truths) {
    u64 half;
    u8x8 bytes = __builtin_convertvector(truths, u8x8);
    memcpy(&half, &bytes, sizeof half);
    return (u8)((half & 0x8040201008040201u) * 0x101010101010101u >> 56);
}
static ALWAYSINLINE u32 bits_u32x4(u32x4 truths) {
#ifdef __SSE2__
    return (u32)__builtin_ia32_movmskps((float __attribute__((vector_size(16))))truths);
#else
    return (truths[0] & 1) | (truths[1] & 2) | (truths[2] & 4) | (truths[3] & 8);
#endif
}
static ALWAYSINLINE u32 bits_u64x2(u64x2 truths) { return (u32)((truths[0] & 1) | (truths[1] & 2)); }
/* Which truth is the first that holds, or how many there are. */
static ALWAYSINLINE u64 first_u8x16(u8x16 truths) { return (u64)__builtin_ctz(bits_u8x16(truths) | 1u << 16); }
static ALWAYSINLINE u64 first_u32x4(u32x4 truths) { return (u64)__builtin_ctz(bits_u32x4(truths) | 1u << 4); }

static ALWAYSINLINE u64 sum_u64x2(u64x2 a) { return a[0] + a[1]; }
static ALWAYSINLINE u32 sum_u32x4(u32x4 a) { return a[0] + a[1] + a[2] + a[3]; }
static ALWAYSINLINE u32 sum_u32x2(u32x2 a) { return a[0] + a[1]; }
static ALWAYSINLINE u16 sum_u16x8(u16x8 a) {
    return (u16)(a[0] + a[1] + a[2] + a[3] + a[4] + a[5] + a[6] + a[7]);
}

/* The bytes of each number turned round. */
static ALWAYSINLINE u16x8 bswap_u16x8(u16x8 a) { return a << 8 | a >> 8; }
static ALWAYSINLINE u32x2 bswap_u32x2(u32x2 a) { return (u32x2){bswap32(a[0]), bswap32(a[1])}; }
static ALWAYSINLINE u32x4 bswap_u32x4(u32x4 a) {
#ifdef __clang__
    return (u32x4)__builtin_shufflevector((u8x16)a, (u8x16)a, 3, 2, 1, 0, 7, 6, 5, 4, 11, 10, 9, 8, 15, 14, 13, 12);
#else
    return (u32x4)__builtin_shuffle((u8x16)a, (u8x16){3, 2, 1, 0, 7, 6, 5, 4, 11, 10, 9, 8, 15, 14, 13, 12});
#endif
}

/* Vectors of 64 bytes are four of 16. */
typedef struct { u8x16 _0, _1, _2, _3; } u8x64;
static ALWAYSINLINE u8x64 load_u8x64(u8 *from) {
    return (u8x64){at(u8x16_1, from), at(u8x16_1, from + 16), at(u8x16_1, from + 32), at(u8x16_1, from + 48)};
}
static ALWAYSINLINE u8x64 ne_u8x64(u8x64 a, u8x64 b) {
    return (u8x64){(u8x16)(a._0 != b._0), (u8x16)(a._1 != b._1), (u8x16)(a._2 != b._2), (u8x16)(a._3 != b._3)};
}
