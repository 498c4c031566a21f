/* Checks the C functions of c/runtime-aarch64.c, or the kit's own for x86-64, by what their contracts say. Prints a line
   for each check that fails, and then how many passed and failed. tests/program/test_aarch64.py gives the arguments, which rattle_arg
   copies. */
#define _GNU_SOURCE
#include <errno.h>
#include <malloc.h>
#include <pthread.h>
#include <stdint.h>
#include <stdio.h>
#include <stdlib.h>
#include <string.h>
#include <unistd.h>

/* The result as compiled callers see it, in two registers. */
struct words {
    uint64_t ok;
    unsigned char *memory;
};
extern struct words rattle_alloc(size_t size, size_t align);
extern struct words rattle_realloc(void *old, size_t kept, size_t size, size_t align);
extern void rattle_dealloc(void *block);
extern ptrdiff_t rattle_arg(size_t index, char *out, size_t room);
extern int rattle_errno(void);
extern void rattle_set_errno(int error);

enum { COUNT = 6, LONGEST = 131071, ROOM = 200000 };

static int passed, failed;
/* As long as an argument of Linux may be. */
static char longest[LONGEST + 1];

static void holds(const char *what, int so) {
    passed += so != 0;
    failed += so == 0;
    if (!so)
        printf("%s\n", what);
}

static int is_aligned(const void *block) {
    return block && (uintptr_t)block % 16 == 0;
}

/* Blocks of all sizes and alignments: each has its own address and the bytes asked for, or those of its alignment. */
static void small(void) {
    const size_t sizes[] = {0, 1, 7, 24, 4096, 1 << 20}, aligns[] = {1, 2, 8, 16};
    for (int i = 0; i < 6; i++)
        for (int k = 0; k < 4; k++) {
            struct words one = rattle_alloc(sizes[i], aligns[k]), other = rattle_alloc(sizes[i], aligns[k]);
            size_t least = sizes[i] ? sizes[i] : aligns[k];
            char what[80];
            snprintf(what, sizeof what, "a block of %zu bytes, aligned to %zu", sizes[i], aligns[k]);
            holds(what, one.ok == 1 && is_aligned(one.memory) && one.memory != other.memory &&
                            malloc_usable_size(one.memory) >= least);
            memset(one.memory, 0x5a, sizes[i]);
            rattle_dealloc(one.memory);
            rattle_dealloc(other.memory);
        }
}

/* A block that is freed is used no more. It is too large for those that malloc keeps in use after that. */
static void freed(void) {
    size_t before = mallinfo2().uordblks;
    struct words block = rattle_alloc(5000, 8);
    int is_used = mallinfo2().uordblks >= before + 5000;
    rattle_dealloc(block.memory);
    holds("a block that is freed", is_used && mallinfo2().uordblks == before);
}

/* More memory than there is: the answer is false, with a pointer that is not null, and the old block is as it was. */
static void large(void) {
    const size_t sizes[] = {(size_t)1 << 47, (size_t)1 << 48, (size_t)1 << 62, ((size_t)1 << 63) - 1};
    for (int i = 0; i < 4; i++) {
        errno = 0;
        struct words found = rattle_alloc(sizes[i], 8), block = rattle_alloc(8, 8);
        holds("a block that is too large", found.ok == 0 && found.memory && errno == ENOMEM);
        memcpy(block.memory, "kept all", 8);
        errno = 0;
        found = rattle_realloc(block.memory, 8, sizes[i], 8);
        int is_told = found.ok == 0 && found.memory && errno == ENOMEM;
        holds("a block that would become too large", is_told && !memcmp(block.memory, "kept all", 8));
        rattle_dealloc(block.memory);
    }
}

/* A block that grows and shrinks, from and to 0 bytes, which frees nothing. */
static void resized(void) {
    struct words block = rattle_alloc(0, 16);
    block = rattle_realloc(block.memory, 0, 5, 1);
    holds("from 0 bytes to 5", block.ok == 1 && is_aligned(block.memory));
    memcpy(block.memory, "01234", 5);
    block = rattle_realloc(block.memory, 5, 3 << 20, 1);
    holds("from 5 bytes to 3 MB", block.ok == 1 && !memcmp(block.memory, "01234", 5));
    memset(block.memory, 7, 3 << 20);
    block = rattle_realloc(block.memory, 3, 3, 1);
    holds("from 3 MB to 3 bytes", block.ok == 1 && block.memory[0] == 7 && block.memory[2] == 7);
    block = rattle_realloc(block.memory, 0, 0, 16);
    holds("from 3 bytes to 0", block.ok == 1 && block.memory && malloc_usable_size(block.memory) >= 16);
    block = rattle_realloc(block.memory, 0, 64, 8);
    holds("from 0 bytes to 64", block.ok == 1 && malloc_usable_size(block.memory) >= 64);
    rattle_dealloc(block.memory);
}

static void *in_thread(void *found) {
    rattle_set_errno(77);
    *(int *)found = rattle_errno();
    return 0;
}

/* Error numbers are those of the C library, have the values of an int, and belong to a thread. */
static void errors(void) {
    int found = 0;
    pthread_t thread;
    rattle_set_errno(5);
    holds("an error number that is set", errno == 5 && rattle_errno() == 5);
    rattle_set_errno(-1);
    holds("an error number below 0", errno == -1 && rattle_errno() == -1);
    rattle_set_errno(0x7fffffff);
    holds("the largest error number", rattle_errno() == 0x7fffffff);
    close(-1);
    holds("the error number of a call that failed", rattle_errno() == EBADF);
    rattle_set_errno(5);
    pthread_create(&thread, 0, in_thread, &found);
    pthread_join(thread, 0);
    holds("error numbers of two threads", found == 77 && rattle_errno() == 5);
}

/* Copies an argument to where there is room for so many bytes. `wanted` is the result, and `kept` of its bytes are
   there; no byte behind them changes, nor does the error number. */
static void argument(size_t index, size_t room, ptrdiff_t wanted, const char *bytes, size_t kept) {
    static char out[ROOM];
    memset(out, '#', sizeof out);
    errno = 3;
    ptrdiff_t found = rattle_arg(index, out, room);
    int is_right = found == wanted && !memcmp(out, bytes, kept) && out[kept] == '#' && out[ROOM - 1] == '#';
    char what[80];
    snprintf(what, sizeof what, "argument %zu, with room for %zu bytes: %td", index, room, found);
    holds(what, is_right && errno == 3);
}

static void arguments(void) {
    argument(1, 10, 0, "", 0);
    argument(1, 0, 0, "", 0);
    argument(2, 10, 5, "plain", 5);
    argument(2, 5, 5, "plain", 5);
    argument(2, 4, -2, "plai", 4);
    argument(2, 0, -2, "", 0);
    argument(3, 10, 4, "\xff\x80\x01\xc3", 4);
    argument(4, ROOM - 1, LONGEST, longest, LONGEST);
    argument(4, LONGEST, LONGEST, longest, LONGEST);
    argument(4, LONGEST - 1, -2, longest, LONGEST - 1);
    argument(4, 4096, -2, longest, 4096);
    argument(5, 10, 4, "last", 4);
    argument(6, 10, -1, "", 0);
    argument((size_t)1 << 32, 10, -1, "", 0);
    argument((size_t)1 << 63, 10, -1, "", 0);
    argument((size_t)-1, 10, -1, "", 0);
}

int main(int argc, char **argv) {
    memset(longest, 'x', LONGEST);
    small();
    freed();
    large();
    resized();
    errors();
    holds("there are six arguments", argc == COUNT);
    arguments();
    argv[5] = 0;
    argument(5, 10, -1, "", 0);
    printf("%d passed, %d failed\n", passed, failed);
    return failed != 0;
}
