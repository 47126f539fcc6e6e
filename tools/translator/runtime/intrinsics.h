/* What LLVM calls intrinsics, for numbers of each width, and its odd numbers and floating point. */
#define INTRINSICS(bits) \
    static inline u##bits umin##bits(u##bits a, u##bits b) { return a < b ? a : b; } \
    static inline u##bits umax##bits(u##bits a, u##bits b) { return a > b ? a : b; } \
    static inline u##bits smin##bits(u##bits a, u##bits b) { return (i##bits)a < (i##bits)b ? a : b; } \
    static inline u##bits smax##bits(u##bits a, u##bits b) { return (i##bits)a > (i##bits)b ? a : b; } \
    static inline u##bits usub_sat##bits(u##bits a, u##bits b) { return a > b ? (u##bits)(a - b) : 0; } \
    static inline u##bits uadd_sat##bits(u##bits a, u##bits b) { \
        return (u##bits)(a + b) < a ? (u##bits)-1 : (u##bits)(a + b); \
    } \
    static inline u##bits abs##bits(u##bits a) { return a >> (bits - 1) ? (u##bits)-a : a; } \
    static inline u##bits ctpop##bits(u##bits a) { return (u##bits)__builtin_popcountll(a); } \
    static inline u##bits cttz##bits(u##bits a) { return (u##bits)(a != 0 ? __builtin_ctzll(a) : bits); } \
    static inline u##bits ctlz##bits(u##bits a) { \
        return (u##bits)(a != 0 ? __builtin_clzll(a) - (64 - bits) : bits); \
    } \
    static inline u##bits fshl##bits(u##bits a, u##bits b, u##bits by) { \
        by &= bits - 1; \
        return by != 0 ? (u##bits)((u64)a << by | b >> (bits - by)) : a; \
    } \
    static inline u##bits fshr##bits(u##bits a, u##bits b, u##bits by) { \
        by &= bits - 1; \
        return by != 0 ? (u##bits)((u64)a << (bits - by) | b >> by) : b; \
    } \
    typedef struct MAY_ALIAS u##bits##_flag { u##bits _0; flag _1; } u##bits##_flag, u##bits##_flag_at; \
    WITH_OVERFLOW(bits, uadd, add) \
    WITH_OVERFLOW(bits, usub, sub) \
    WITH_OVERFLOW(bits, umul, mul)
#define WITH_OVERFLOW(bits, name, what) \
    static inline u##bits##_flag name##_with_overflow##bits(u##bits a, u##bits b) { \
        u##bits##_flag made; \
        made._1 = __builtin_##what##_overflow(a, b, &made._0); \
        return made; \
    }
INTRINSICS(8)
INTRINSICS(16)
INTRINSICS(32)
INTRINSICS(64)
static inline u128 umin128(u128 a, u128 b) { return a < b ? a : b; }
static inline u128 umax128(u128 a, u128 b) { return a > b ? a : b; }
static inline u128 usub_sat128(u128 a, u128 b) { return a > b ? a - b : 0; }
static inline u16 bswap16(u16 a) { return __builtin_bswap16(a); }
static inline u32 bswap32(u32 a) { return __builtin_bswap32(a); }
static inline u64 bswap64(u64 a) { return __builtin_bswap64(a); }

/* Any number of bytes, also none, which LLVM copies from and to any pointer. */
static inline void memcpy_any(u8 *to, const u8 *from, u64 size) {
    if (size != 0) memcpy(to, from, size);
}
static inline void memmove_any(u8 *to, const u8 *from, u64 size) {
    if (size != 0) memmove(to, from, size);
}
static inline void memset_any(u8 *to, u8 value, u64 size) {
    if (size != 0) memset(to, value, size);
}

/* Numbers of some whole bytes. */
#define BYTES(bits, whole) \
    static inline whole load##bits(const u8 *from) { \
        whole made = 0; \
        memcpy(&made, from, bits / 8); \
        return made; \
    } \
    static inline void store##bits(u8 *to, whole value) { memcpy(to, &value, bits / 8); }
BYTES(24, u32)
BYTES(40, u64)
BYTES(48, u64)
BYTES(56, u64)

/* The result of arithmetic with floating point. It goes through memory, so that no processor merges a product and a
 * sum, which would round once where LLVM rounds twice. */
static inline double fenced(double number) {
    volatile double kept = number;
    return kept;
}
static inline double double_of(u64 bits) {
    double made;
    memcpy(&made, &bits, sizeof made);
    return made;
}
