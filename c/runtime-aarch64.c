/* The C functions that the program and the library for C call in Rattle's libraries, for Linux on aarch64, over glibc
   and in C11. The kit has them for x86-64 only, compiled, in libos_c.a and liblibc_c.a. Each function does what its
   contract in the kit's sources says, which the proofs assume: rattle_alloc, rattle_realloc and rattle_dealloc in
   rattle/libc/src/heap.rt, struct tried in rattle/libc/src/types.rt as Tried, and the others in rattle/os/src/c.rt.

   With -DONLY_HEAP it is compiled for the library for C, which calls only the functions for memory. */
#include <stdbool.h>
#include <stddef.h>
#include <stdlib.h>

/* Whether there is memory, and the pointer to it. If there is none, the pointer is not null, and nothing may be read or
   written there. */
struct tried {
    bool ok;
    void *memory;
};

/* The layout that compiled callers expect, and the alignment of every block that malloc returns: callers ask for no
   larger one (`align_divides_16`). */
_Static_assert(sizeof(struct tried) == 16 && offsetof(struct tried, memory) == 8, "the layout of Tried differs");
_Static_assert(sizeof(size_t) == 8 && sizeof(ptrdiff_t) == 8 && sizeof(int) == 4, "the sizes of numbers differ");
_Static_assert(_Alignof(max_align_t) == 16, "malloc may align blocks to less than 16 bytes");

/* What a pointer points to if there is no memory. */
static char nothing;

static struct tried answer(void *memory) {
    return memory ? (struct tried){true, memory} : (struct tried){false, &nothing};
}

/* Allocates a block of `size` bytes, which is below 2^63. For a type without bytes the block has `align` bytes, so that
   every block has an address of its own, which free and realloc take. */
struct tried rattle_alloc(size_t size, size_t align) {
    return answer(malloc(size ? size : align));
}

/* Makes a block of `size` bytes, which is below 2^63, of the one at `old`, and keeps its first `kept` bytes. realloc
   keeps as many as both blocks have, which is no less. If there is no memory, the old block is as it was. realloc never
   gets the size 0, by which it would free the block. */
struct tried rattle_realloc(void *old, size_t kept, size_t size, size_t align) {
    (void)kept;
    return answer(realloc(old, size ? size : align));
}

/* Frees a block that one of the two functions above returned. */
void rattle_dealloc(void *block) {
    free(block);
}

#ifndef ONLY_HEAP
#include <errno.h>

static int count;
static char **arguments;

/* Keeps the arguments of main before it runs: glibc passes them to every constructor, also in a static program. */
__attribute__((constructor)) static void keep(int argc, char **argv) {
    count = argc;
    arguments = argv;
}

/* Copies the bytes of argument `index`, whatever they are and without the 0 that ends them, to `out`, which has room
   for `room` bytes. Returns how many bytes the argument has, -1 if there is no such argument, or -2 if it has more than
   `room` bytes; `out` is then full of the first ones. */
ptrdiff_t rattle_arg(size_t index, char *out, size_t room) {
    if (index >= (size_t)count || !arguments[index])
        return -1;
    const char *argument = arguments[index];
    size_t length = 0;
    for (; argument[length]; length++) {
        if (length == room)
            return -2;
        out[length] = argument[length];
    }
    return (ptrdiff_t)length;
}

/* Returns the error number of this thread's last call that failed. */
int rattle_errno(void) {
    return errno;
}

/* Sets the error number of this thread. */
void rattle_set_errno(int error) {
    errno = error;
}
#endif
