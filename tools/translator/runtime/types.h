/* Types, places in memory, and the intrinsics of LLVM. */
#if !defined(__GNUC__) || !defined(__SIZEOF_INT128__) || __SIZEOF_POINTER__ != 8 || __SIZEOF_INT__ != 4 || \
    __BYTE_ORDER__ != __ORDER_LITTLE_ENDIAN__
#error "fontcut needs GCC or Clang and a 64-bit little-endian processor"
#endif
/* All that the C library has is wanted, also by -std=c11. */
#undef _DEFAULT_SOURCE
#define _DEFAULT_SOURCE
#define _DARWIN_C_SOURCE
#include <stdalign.h>
#include <stdbool.h>
#include <stddef.h>
#include <stdint.h>
#include <stdlib.h>
#include <string.h>

#pragma GCC diagnostic ignored "-Wunused-parameter"
#pragma GCC diagnostic ignored "-Wunused-function"
#if !defined(__clang__) /* of branches that are never taken */
#pragma GCC diagnostic ignored "-Warray-bounds"
#pragma GCC diagnostic ignored "-Wfree-nonheap-object"
#endif
#if defined(__GNUC__) && !defined(__clang__) && __GNUC__ >= 15
#pragma GCC diagnostic ignored "-Wunterminated-string-initialization"
#endif

typedef uint8_t u8;
typedef uint8_t flag; /* 0 or 1 */
typedef uint16_t u16;
typedef uint32_t u32;
typedef uint64_t u64;
typedef unsigned __int128 u128;
typedef int8_t i8;
typedef int16_t i16;
typedef int32_t i32;
typedef int64_t i64;
#define MAY_ALIAS __attribute__((may_alias))
#undef UNALIGNED
#define UNALIGNED(bytes) __attribute__((aligned(bytes)))
#define PACKED __attribute__((packed))
#define NOINLINE __attribute__((noinline))
#define COLD __attribute__((cold))
#define ALWAYSINLINE inline __attribute__((always_inline))
#define HIDDEN __attribute__((visibility("hidden")))

/* What lies at a place in memory, which may be read as any type. */
typedef u8 u8_at;
typedef u16 MAY_ALIAS u16_at;
typedef u32 MAY_ALIAS u32_at;
typedef u64 MAY_ALIAS u64_at;
typedef u128 MAY_ALIAS u128_at;
typedef u8 *MAY_ALIAS ptr_at;
typedef double MAY_ALIAS double_at;
#define at(type, place) (*(type##_at *)(place))
