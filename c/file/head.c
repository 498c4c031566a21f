/* libdnorm: the library for C of dnorm as one file, for any system that is little endian, has pointers of 64 bits and a
   compiler for C99. dnorm.h, which lies beside it, says what its functions do.

       cc -O2 -c libdnorm.c

   The functions below are those of the proved library, as the kit has compiled it to WebAssembly, made into C by
   c/file/make: an address there is an address of the program here. There is no variable that a call changes. Each call
   puts what the module has on its own stack into DN_STACK bytes of the caller's stack. */
#include <stdint.h>
#if (defined(__BYTE_ORDER__) && __BYTE_ORDER__ != __ORDER_LITTLE_ENDIAN__) || UINTPTR_MAX != 0xFFFFFFFFFFFFFFFF
#error "libdnorm.c is for little endian systems with pointers of 64 bits"
#endif
/* What is linked with a static library exports none of its functions. -DDNORM_SHARED is for a shared one. */
#if defined(__GNUC__) && !defined(_WIN32) && !defined(DNORM_SHARED)
#pragma GCC visibility push(hidden)
#include "dnorm.h"
#pragma GCC visibility pop
#else
#include "dnorm.h"
#endif
#include <stdlib.h>
#include <string.h>
#if DNORM_ABI != 3
#error "this dnorm.h is of another version than libdnorm.c"
#endif

#undef dnorm_feed
#undef dnorm_lines
#undef dnorm_next
#undef dnorm_items
#undef dnorm_canon
#undef dnorm_text
#undef dnorm_spread

typedef uint8_t u8;
typedef uint16_t u16;
typedef uint32_t u32;
typedef uint64_t u64;
typedef int8_t s8;
typedef int16_t s16;
typedef int32_t s32;
typedef int64_t s64;
#define U64(n) UINT64_C(n)
#define DN_ASSERT(test, name) typedef char dn_assert_##name[(test) ? 1 : -1]
DN_ASSERT(sizeof(void *) == 8 && sizeof(size_t) == 8 && sizeof(int) == 4 && sizeof(bool) == 1, sizes);
/* A number of too many bits loses the upper ones, and a shift to the right keeps the sign. */
DN_ASSERT((s8)(u32)0x180 == -128 && (s64)(U64(1) << 63) < 0 && (s32)-2 >> 1 == -1, signs);

/* The largest frame of the module has 9,552 bytes. */
#ifndef DN_STACK
#define DN_STACK 12288
#endif

/* What a call of the library has beside its arguments. */
typedef struct {
    /* The pointer to the module's stack, and the lowest that it may be. */
    u64 g0, low;
    /* Whether a call goes on. */
    u32 g1;
} dn_call;

#define DN_TRAP() abort()
/* Whether the module's stack has no room down to here. The difference is right for any address, also if `p` is below
   0, since no frame is as large as the memory. */
#define DN_BELOW(p) ((p) - c->low > DN_STACK)
#define DN_P(a) ((void *)(uintptr_t)(a))
#define DN_AT(n) ((u64)(uintptr_t)&dn_data + (n))

/* A load and a store of each size, at a multiple of it, and (u) at any address. */
#if defined(__GNUC__) && !defined(__TINYC__)
#define DN_INLINE static inline __attribute__((unused))
#define DN_MAY_ALIAS __attribute__((may_alias))
#else
#define DN_INLINE static inline
#define DN_MAY_ALIAS
#endif
#define DN_ACCESS(n) \
    typedef u##n DN_MAY_ALIAS dn_at##n; \
    DN_INLINE u##n ld##n(u64 a) { return *(const dn_at##n *)DN_P(a); } \
    DN_INLINE void st##n(u64 a, u64 x) { *(dn_at##n *)DN_P(a) = (u##n)x; } \
    DN_INLINE u##n ld##n##u(u64 a) { u##n x; memcpy(&x, DN_P(a), sizeof x); return x; } \
    DN_INLINE void st##n##u(u64 a, u64 x) { u##n y = (u##n)x; memcpy(DN_P(a), &y, sizeof y); }
DN_ACCESS(8)
DN_ACCESS(16)
DN_ACCESS(32)
DN_ACCESS(64)
#undef DN_ACCESS
DN_INLINE void dn_copy(u64 to, u64 from, u64 n) { if (n) memmove(DN_P(to), DN_P(from), (size_t)n); }
DN_INLINE void dn_fill(u64 to, u32 byte, u64 n) { if (n) memset(DN_P(to), (int)(byte & 255), (size_t)n); }

#define DN_NUMBERS(n) \
    DN_INLINE u##n DIV_U##n(u##n x, u##n y) { if (!y) DN_TRAP(); return x / y; } \
    DN_INLINE u##n REM_U##n(u##n x, u##n y) { if (!y) DN_TRAP(); return x % y; } \
    DN_INLINE u##n DIV_S##n(u##n x, u##n y) { \
        if (!y || (x == (u##n)1 << (n - 1) && y == (u##n)-1)) DN_TRAP(); \
        return (u##n)((s##n)x / (s##n)y); \
    } \
    DN_INLINE u##n REM_S##n(u##n x, u##n y) { \
        if (!y) DN_TRAP(); \
        return y == (u##n)-1 ? 0 : (u##n)((s##n)x % (s##n)y); \
    } \
    DN_INLINE u##n ROTL##n(u##n x, u##n y) { y &= n - 1; return y ? x << y | x >> (n - y) : x; } \
    DN_INLINE u##n ROTR##n(u##n x, u##n y) { y &= n - 1; return y ? x >> y | x << (n - y) : x; }
DN_NUMBERS(32)
DN_NUMBERS(64)
#undef DN_NUMBERS
DN_INLINE u64 POPCNT64(u64 x) {
    x -= x >> 1 & U64(0x5555555555555555);
    x = (x & U64(0x3333333333333333)) + (x >> 2 & U64(0x3333333333333333));
    x = (x + (x >> 4)) & U64(0x0F0F0F0F0F0F0F0F);
    return x * U64(0x0101010101010101) >> 56;
}
DN_INLINE u32 POPCNT32(u32 x) { return (u32)POPCNT64(x); }
#if defined(__GNUC__) && !defined(__TINYC__)
DN_INLINE u64 CLZ64(u64 x) { return x ? (u64)__builtin_clzll(x) : 64; }
DN_INLINE u64 CTZ64(u64 x) { return x ? (u64)__builtin_ctzll(x) : 64; }
#else
DN_INLINE u64 CLZ64(u64 x) {
    x |= x >> 1, x |= x >> 2, x |= x >> 4, x |= x >> 8, x |= x >> 16, x |= x >> 32;
    return 64 - POPCNT64(x);
}
DN_INLINE u64 CTZ64(u64 x) { return POPCNT64(~x & (x - 1)); }
#endif
DN_INLINE u32 CLZ32(u32 x) { return (u32)CLZ64(x) - 32; }
DN_INLINE u32 CTZ32(u32 x) { return (u32)CTZ64(x | U64(1) << 32); }

/* The functions that the module imports. `to` gets whether there is memory, and the pointer to it. */
static void dn_tried(u64 to, void *p) {
    static const u8 nothing[16] = {0};
    st8(to, p != NULL);
    st64(to + 8, (u64)(uintptr_t)(p ? p : (const void *)nothing));
}
static void dn_rattle_alloc(dn_call *c, u64 to, u64 size, u64 align) {
    (void)c;
    dn_tried(to, malloc((size_t)(size ? size : align)));
}
static void dn_rattle_realloc(dn_call *c, u64 to, u64 old, u64 kept, u64 size, u64 align) {
    (void)c, (void)kept;
    dn_tried(to, realloc(DN_P(old), (size_t)(size ? size : align)));
}
static void dn_rattle_dealloc(dn_call *c, u64 block) {
    (void)c;
    free(DN_P(block));
}

