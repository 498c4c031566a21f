/* Calls the functions that a module of assembled.py is made into, and prints what assembled.mjs prints. Beside it are
   head.c, the beginning of c/file/head.c with a trap that comes back, functions.c and given.h. */
#include <setjmp.h>
#include <stdio.h>
static jmp_buf trap;
#include "head.c"
static u32 sum;
static void add(u32 byte) { sum = (sum ^ byte) * 16777619u; }
static void number(u64 it) {
    for (int i = 0; i < 64; i += 8) add((u32)(it >> i & 255));
}
static void dn_seen(dn_call *c, u64 it) { (void)c, number(it); }
#include "functions.c"
#include "given.h"
static const u64 numbers[] = {NUMBERS};
static u64 (*const functions[])(dn_call *, u64, u64, u64) = {FUNCTIONS};
static u64 own[ROOM / 8];
static dn_call call;

/* Prints how deep the calls go for which the module's stack has room, unless they write below it, or a pointer is taken
   for one that has room. */
static void go_deep(void) {
    static u64 stack[STACK / 4];
    volatile u64 depth = 0;
    u64 *const low = stack + STACK / 8;
    call.low = (u64)(uintptr_t)low + 16;
    call.g0 = (u64)(uintptr_t)low + STACK;
    if (!setjmp(trap))
        for (;; depth++) DEEP(&call, 0, depth, 0);
    for (u64 *it = stack; it < low + 2; it++)
        if (*it) puts("below");
    for (size_t i = 0; i < 3; i++) {
        const u64 lows[] = {64, U64(1) << 63, ~U64(0) - DN_STACK};
        dn_call other = {0, 0, 0}, *const c = &other;
        c->low = lows[i];
        if (DN_BELOW(lows[i]) || DN_BELOW(lows[i] + DN_STACK - 16) || !DN_BELOW(lows[i] - 8)) puts("wrong");
        if (!DN_BELOW(lows[i] - 9000)) puts("wrong");
    }
    printf("deep %u\n", (unsigned)depth);
}

int main(void) {
    const size_t count = sizeof numbers / sizeof *numbers;
    for (size_t i = 0; i < sizeof functions / sizeof *functions; i++) {
        sum = 2166136261u;
        for (volatile size_t n = 0; n < count * count; n++) {
            if (i >= PLAIN && n % 29) continue;
            memset(own, 0xa5, sizeof own);
            if (setjmp(trap)) add(1);
            else number(functions[i](&call, (u64)(uintptr_t)own, numbers[n / count], numbers[n % count]));
            for (size_t at = 0; i >= PLAIN - 1 && at < sizeof own; at++) add(((const u8 *)own)[at]);
        }
        printf("%u\n", (unsigned)sum);
    }
    go_deep();
    return 0;
}
