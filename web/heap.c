/* The functions over memory that the library for C has in place of malloc where it is a WebAssembly module: three that
   the kit's libc declares, which do what c/runtime-aarch64.c says, and malloc and free for the host of the module. They
   own the memory from __heap_base on, and let it grow. The file needs no C library, no header and no import.

   A block is a head of 16 bytes and what follows it. Blocks lie side by side, from the first one to `last`. Free blocks
   are also in lists, one for each power of two of their sizes, and no two of them are neighbours. web/tests/heap.c
   includes this file with TEST, over an array in place of the memory of a module. */
typedef __SIZE_TYPE__ size;
_Static_assert(sizeof(size) == 8 && sizeof(void *) == 8, "not a processor of 64 bits");

struct block {
    size before; /* The bytes of the block before this one, with its head; 0 for the first block. */
    size bytes;  /* The bytes of this block with its head, a multiple of 16; and 1 if it is free. */
    struct block *next, *back; /* The neighbours in its list, while it is free. */
};
enum { HEAD = 16, LEAST = 32, PAGE = 65536, LISTS = 64 };

#ifndef TEST
extern unsigned char __heap_base;
#define BASE (((size)&__heap_base + 15) & ~(size)15)
/* wasm-opt --memory64-lowering cuts addresses to 32 bits. Nothing is cut, since no memory has more than MOST_PAGES pages,
   which tools/wasm defines; and a refused growth comes back as 2^32-1. */
static size pages(void) { return __builtin_wasm_memory_size(0); }
static int grow(size more) {
    return more <= MOST_PAGES - pages() && (unsigned)__builtin_wasm_memory_grow(0, more) != 0xFFFFFFFFu;
}
/* What the host calls. The attribute export_name would also make a table of functions. */
__asm__(".export_name dn_malloc, malloc\n.export_name dn_free, free\n.export_name dnorm_free, dnorm_free\n");

/* dnorm_free takes null, as in c/free.c. */
void dnorm_release(void *any);
void dnorm_free(void *any) {
    if (any) dnorm_release(any);
}
/* As the kit's backend names the functions of a block with #[link(wasm_import_module = "env")]. */
#define CALLED(name) __asm__("import " name " from env")
#else
extern size test_base, test_pages(void);
extern int test_grow(size);
#define BASE test_base
#define MOST_PAGES 65536
#define pages test_pages
#define grow test_grow
#define CALLED(name)
#endif

static struct block *lists[LISTS];
static unsigned long long filled; /* Which lists have a block. */
static struct block *last;        /* The last block, or null before the first call. */
static size end;                  /* Where it ends. */

static size bytes_of(const struct block *b) { return b->bytes & ~(size)1; }
static struct block *after(struct block *b) { return (struct block *)((size)b + bytes_of(b)); }
static int list_of(size bytes) { return 63 - __builtin_clzll(bytes); }

static void put(struct block *b) {
    const int i = list_of(bytes_of(b));
    b->bytes |= 1;
    b->next = lists[i];
    b->back = 0;
    if (b->next) b->next->back = b;
    lists[i] = b;
    filled |= 1ull << i;
}

static void take(struct block *b) {
    const int i = list_of(bytes_of(b));
    b->bytes &= ~(size)1;
    if (b->next) b->next->back = b->back;
    if (b->back) b->back->next = b->next;
    else if (!(lists[i] = b->next)) filled &= ~(1ull << i);
}

/* Sets the length of a block that is in no list, and tells the next block. */
static void set(struct block *b, size bytes) {
    b->bytes = bytes;
    if (b == last) end = (size)b + bytes;
    else after(b)->before = bytes;
}

/* Cuts what a block in use has above `bytes`, and frees it. */
static void cut(struct block *b, size bytes) {
    const size all = b->bytes;
    if (all - bytes < LEAST) return;
    struct block *rest = (struct block *)((size)b + bytes);
    b->bytes = bytes;
    rest->before = bytes;
    if (b == last) last = rest;
    rest->bytes = all - bytes;
    if (rest != last && (after(rest)->bytes & 1)) {
        struct block *more = after(rest);
        take(more);
        if (more == last) last = rest;
        rest->bytes += more->bytes;
    }
    set(rest, rest->bytes);
    put(rest);
}

/* Makes the last block, in use, end at least at `to`. */
static int reach(size to) {
    const size have = pages();
    if (to > (size)MOST_PAGES * PAGE) return 0;
    if (to > have * PAGE) {
        const size need = (to - have * PAGE + PAGE - 1) / PAGE, more = have / 8 + 1;
        if (!(more > need && grow(more)) && !grow(need)) return 0;
    }
    set(last, pages() * PAGE - (size)last);
    return 1;
}

/* A number of bytes with the head, or 0 if no memory has so many. */
static size whole(size n) {
    const size all = n > (size)MOST_PAGES * PAGE ? 0 : (n + HEAD + 15) & ~(size)15;
    return all && all < LEAST ? LEAST : all;
}

static void *inside(struct block *b) { return (unsigned char *)b + HEAD; }
static struct block *block_of(void *p) { return (struct block *)((unsigned char *)p - HEAD); }

void *dn_malloc(size n) {
    const size bytes = whole(n);
    if (!bytes) return 0;
    const int i = list_of(bytes);
    struct block *b = lists[i];
    while (b && bytes_of(b) < bytes) b = b->next;
    const unsigned long long above = i == 63 ? 0 : filled >> (i + 1) << (i + 1);
    if (!b && above) b = lists[__builtin_ctzll(above)];
    if (b) {
        take(b);
    } else if (last && (last->bytes & 1)) {
        b = last;
        take(b);
        if (!reach((size)b + bytes)) {
            put(b);
            return 0;
        }
    } else {
        const size at = last ? end : BASE, had = end;
        struct block *const old = last;
        /* Nothing is written before the memory is there. */
        if (at + bytes > pages() * PAGE) {
            const size need = (at + bytes - pages() * PAGE + PAGE - 1) / PAGE, more = pages() / 8 + 1;
            if (at + bytes > (size)MOST_PAGES * PAGE || (!(more > need && grow(more)) && !grow(need))) return 0;
        }
        b = last = (struct block *)at;
        b->before = old ? had - (size)old : 0;
        set(b, pages() * PAGE - at);
    }
    cut(b, bytes);
    return inside(b);
}

void dn_free(void *p) {
    if (!p) return;
    struct block *b = block_of(p);
    if (b != last && (after(b)->bytes & 1)) {
        struct block *const more = after(b);
        take(more);
        if (more == last) last = b;
        set(b, b->bytes + more->bytes);
    }
    struct block *const under = (struct block *)((size)b - b->before);
    if (b->before && (under->bytes & 1)) {
        take(under);
        if (b == last) last = under;
        set(under, under->bytes + b->bytes);
        b = under;
    }
    put(b);
}

static void *dn_realloc(void *p, size kept, size n) {
    const size bytes = whole(n);
    struct block *const b = block_of(p);
    if (!bytes) return 0;
    const size had = b->bytes;
    struct block *const more = after(b);
    if (had < bytes && b != last && (more->bytes & 1) && (more == last || had + bytes_of(more) >= bytes)) {
        take(more);
        if (more == last) last = b;
        set(b, had + more->bytes);
    }
    if (b->bytes >= bytes || (b == last && reach((size)b + bytes))) {
        cut(b, bytes);
        return p;
    }
    /* The block is as it was, and another one is sought. */
    cut(b, had);
    void *const to = dn_malloc(n);
    if (to) {
        __builtin_memcpy(to, p, kept < n ? kept : n);
        dn_free(p);
    }
    return to;
}

/* The kit's `Tried`: whether there is memory, and the pointer to it. Where there is none, the pointer is not null, and
   nothing is owned there. */
struct tried {
    _Bool ok;
    void *p;
};
_Static_assert(sizeof(struct tried) == 16 && __builtin_offsetof(struct tried, p) == 8, "struct tried is not Tried");

static char nothing;

static struct tried answer(void *p) { return p ? (struct tried){1, p} : (struct tried){0, &nothing}; }

struct tried rattle_alloc(size n, size align) CALLED("rattle_alloc");
struct tried rattle_realloc(void *p, size kept, size n, size align) CALLED("rattle_realloc");
void rattle_dealloc(void *p) CALLED("rattle_dealloc");

struct tried rattle_alloc(size n, size align) { return answer(dn_malloc(n ? n : align)); }

struct tried rattle_realloc(void *p, size kept, size n, size align) {
    return answer(dn_realloc(p, kept, n ? n : align));
}

void rattle_dealloc(void *p) { dn_free(p); }
