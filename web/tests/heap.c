/* Calls web/heap.c at random, also where memory ends, and compares with a table of what it gave: that blocks are aligned,
   keep their bytes and overlap nothing, and that the heap's own lists and lengths fit. The argument is the seed. */
#define _GNU_SOURCE
#include <assert.h>
#include <stdio.h>
#include <stdlib.h>
#include <string.h>
#include <sys/mman.h>
#define TEST
#include "../../web/heap.c"

enum { GIVEN = 200, CALLS = 40000, SAMPLES = 50 };

size test_base;
static size have = 1, most;
static int refuses;

size test_pages(void) { return have + test_base / PAGE; }

int test_grow(size more) {
    /* The lowering to 32 bits would cut more. */
    assert(more <= MOST_PAGES - test_pages());
    if (have + more > most || (refuses && rand() % 3 == 0)) return 0;
    have += more;
    return 1;
}

/* What the heap gave: the block, its length, and the byte that all of it has. */
static struct given {
    unsigned char *at;
    size length;
    unsigned char byte;
} table[GIVEN];
static size used, refused, moved;

/* Every block is where the one before it ends, no two free ones are neighbours, and the lists have the free ones. */
static void check_heap(void) {
    size count = 0, free_ones = 0, listed = 0, before = 0;
    int was_free = 0;
    struct block *b = (struct block *)BASE;
    if (!last) return;
    for (;; b = after(b)) {
        const int is_free = b->bytes & 1;
        assert(b->before == before && bytes_of(b) % 16 == 0 && bytes_of(b) >= LEAST);
        assert(!(is_free && was_free));
        before = bytes_of(b);
        was_free = is_free;
        if (is_free) free_ones++;
        else count++;
        if (b == last) break;
    }
    assert((size)after(b) == end && end <= test_pages() * PAGE);
    for (int i = 0; i < LISTS; i++) {
        assert(!lists[i] == !(filled >> i & 1));
        for (struct block *it = lists[i], *back = 0; it; back = it, it = it->next, listed++)
            assert(it->back == back && (it->bytes & 1) && list_of(bytes_of(it)) == i);
    }
    assert(listed == free_ones && count == used);
}

static void check_bytes(const struct given *it, size length) {
    for (size i = 0; i < length; i += 1 + length / SAMPLES) assert(it->at[i] == it->byte);
    if (length) assert(it->at[length - 1] == it->byte);
}

static void fill(struct given *it, size length) {
    assert(((size)it->at & 15) == 0);
    it->length = length;
    it->byte = rand();
    memset(it->at, it->byte, length);
}

/* A length that no memory has, or nearly. */
static size too_long(void) {
    switch (rand() % 3) {
        case 0: return (size)1 << (32 + rand() % 32);
        case 1: return -(size)(rand() % 64);
        default: return (size)MOST_PAGES * PAGE - rand() % 99;
    }
}

static void give(struct given *it, size length) {
    const struct tried got = rattle_alloc(length, (size)1 << rand() % 5);
    assert(got.p);
    refused += !got.ok;
    if (!got.ok) return;
    it->at = got.p;
    used++;
    fill(it, length);
}

static void change(struct given *it, size length) {
    const size kept = it->length ? rand() % (it->length + 1) : 0;
    const struct tried got = rattle_realloc(it->at, kept, length, (size)1 << rand() % 5);
    assert(got.p);
    refused += !got.ok;
    if (!got.ok) {
        check_bytes(it, it->length);
        return;
    }
    moved += got.p != (void *)it->at;
    it->at = got.p;
    check_bytes(it, kept < length ? kept : length);
    fill(it, length);
}

static void release(struct given *it) {
    check_bytes(it, it->length);
    rattle_dealloc(it->at);
    it->at = 0;
    used--;
}

int main(int argc, char **argv) {
    srand(argc > 1 ? atoi(argv[1]) : 1);
    most = 1 + rand() % 1000;
    refuses = rand() % 2;
    void *const wanted = (void *)((size)1 << 24);
    const int how = MAP_PRIVATE | MAP_ANONYMOUS | MAP_FIXED_NOREPLACE;
    assert(mmap(wanted, most * PAGE, PROT_READ | PROT_WRITE, how, -1, 0) == wanted);
    test_base = (size)wanted;
    for (int call = 0; call < CALLS; call++) {
        struct given *const it = &table[rand() % GIVEN];
        size length = ((size)rand() >> rand() % 31) % (most * PAGE / 2 + 1);
        if (rand() % 200 == 0) length = too_long();
        if (!it->at) give(it, length);
        else if (rand() % 2) release(it);
        else change(it, length);
        if (call % 64 == 0) check_heap();
    }
    for (int i = 0; i < GIVEN; i++)
        if (table[i].at) release(&table[i]);
    check_heap();
    assert(last == (struct block *)BASE && (last->bytes & 1)); /* All of it is one free block. */
    printf("%zu refused, %zu moved, %zu of %zu pages\n", refused, moved, have, most);
}
