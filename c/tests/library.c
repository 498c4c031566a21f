/* Misuses the order of calls of the library for C, lets malloc fail, and uses threads, as c/tests says.

       library orders N     every order of N calls out of eleven, on two handles
       library memory       each allocation fails once; prints how many there are
       library readers N    a handle goes through threads, and each of three threads reads its instance N times, and one
                            of its own; prints how many answers are wrong
       library nulls        pointers that are null where there is no room, and a handle that is its own text
       library stack        each call in a thread with a small stack, for the text on standard input

   All memory is freed at the end of each; the status is 1 if that or an answer is wrong. */
#include "dnorm_tools.h"
#include <pthread.h>
#include <string.h>

/* STACK is that of the fifth rule of dnorm.h, in bytes. */
enum { CALLS = 11, STACK = 32768 };

static const char good[] = "p min 4 3\nn 1 2\nn 2 -2\na 1 2 0 5 7\na 2 3 1 5 7\na 1 2 1 5 6\n";
static const char canon[] = "p min 4 5\nn 1 2\nn 2 -2\na 1 2 1 1 6\na 1 2 0 4 6\na 1 2 0 5 7\n"
                            "a 2 3 1 1 7\na 2 3 0 4 7\n";
static const char bad[] = "p sp 1 1\nq\n";
/* The arc lines of the first, a flow on its arcs, and the units of each line. */
static dnorm_row rows[] = {{4, 1, 2, 0, 5, 7}, {5, 2, 3, 1, 5, 7}, {6, 1, 2, 1, 5, 6}};
static const dnorm_arc_lines own_lines = {rows, 3, 3};
static const int64_t flow[] = {1, 4, 2, 1, 0}, shared[] = {2, 1, 5};

/* The linker passes calls of malloc, realloc and free through these, which count what is not yet freed. */
static __thread long left = -1;
static long live;
void *__real_malloc(size_t);
void *__real_realloc(void *, size_t);
void __real_free(void *);

static int fails(void) {
    return left >= 0 && left-- == 0;
}

void *__wrap_malloc(size_t size) {
    void *new = fails() ? 0 : __real_malloc(size);
    if (new) __sync_fetch_and_add(&live, 1);
    return new;
}

void *__wrap_realloc(void *old, size_t size) {
    void *new = fails() ? 0 : __real_realloc(old, size);
    if (!old && new) __sync_fetch_and_add(&live, 1);
    return new;
}

void __wrap_free(void *old) {
    if (old) __sync_fetch_and_sub(&live, 1);
    __real_free(old);
}

static dnorm_status feed(dnorm *reader, const char *text) {
    return dnorm_feed(reader, (const uint8_t *)text, strlen(text));
}

/* Makes the call of this number. */
static void act(int number, dnorm *one, dnorm *other) {
    dnorm_place place = DNORM_FIRST;
    dnorm_arc arcs[2];
    dnorm_item items[2];
    uint8_t bytes[9];
    switch (number) {
    case 0: dnorm_begin(one); break;
    case 1: feed(one, good); break;
    case 2: feed(one, bad); break;
    case 3: dnorm_finish(one); break;
    case 4: dnorm_next(one, 1, &place, arcs, 2); break;
    case 5: dnorm_items(one, &place, items, 2); break;
    case 6: dnorm_canon(one, 2, other); break;
    case 7: dnorm_text(other, 3, bytes, 9); break;
    case 8: dnorm_compare(one, other); break;
    case 9: dnorm_free(one); break;
    default: dnorm_canon(other, 1, one); break;
    }
}

static int orders(int depth) {
    long all = 1;
    for (int i = 0; i < depth; i++) all *= CALLS;
    for (long order = 0; order < all; order++) {
        dnorm one = DNORM_NONE, other = DNORM_NONE;
        /* One of three beginnings: nothing, a reader, an instance. */
        if (order % 3) dnorm_begin(&one);
        if (order % 3 == 2) feed(&one, good), dnorm_finish(&one);
        long rest = order;
        for (int i = 0; i < depth; i++, rest /= CALLS) act((int)(rest % CALLS), &one, &other);
        dnorm_free(&one);
        dnorm_free(&other);
        if (one.full || other.full || live) return printf("order %ld leaves %ld\n", order, live), 1;
    }
    return printf("%ld orders\n", all), 0;
}

static dnorm_status make_text(dnorm *graph, dnorm *text) {
    dnorm_status status = dnorm_begin(graph);
    if (!status.code) status = feed(graph, good);
    if (!status.code) status = dnorm_finish(graph);
    if (!status.code) status = dnorm_canon(graph, 1, text);
    return status;
}

static int memory(void) {
    for (long number = 0;; number++) {
        dnorm graph = DNORM_NONE, text = DNORM_NONE, lines = DNORM_NONE;
        dnorm_star star = DNORM_NO_STAR;
        int64_t units[3];
        left = number;
        int code = make_text(&graph, &text).code;
        if (code == DNORM_FINE) code = dnorm_lines_begin(&lines).code;
        if (code == DNORM_FINE) code = dnorm_star_make(&graph, 1, &star).code;
        if (code == DNORM_FINE) code = dnorm_star_reverse(&star).code;
        if (code == DNORM_FINE) code = dnorm_spread(&graph, 1, flow, 5, &own_lines, units).code;
        int failed = left < 0;
        left = -1;
        if (code != (failed ? DNORM_MEMORY : DNORM_FINE)) return printf("%ld: code %d\n", number, code), 1;
        dnorm_star_free(&star);
        dnorm_free(&lines);
        dnorm_free(&text);
        dnorm_free(&graph);
        if (live) return printf("%ld: leaves %ld\n", number, live), 1;
        if (!failed) return printf("%ld allocations\n", number), 0;
    }
}

static void *feed_good(void *graph) {
    feed(graph, good);
    return 0;
}

static void *finish(void *graph) {
    dnorm_finish(graph);
    return 0;
}

/* An instance and another handle, which threads share, and what one of them found in them. */
typedef struct readings {
    const dnorm *graph, *text;
    long times, wrong;
} readings;

/* Whether the arcs, in both ways to copy them, the items and the text are right. */
static int is_copied(const dnorm *graph, dnorm *text) {
    dnorm_place places[3] = {DNORM_FIRST, DNORM_FIRST, DNORM_FIRST};
    dnorm_arc arcs[8];
    dnorm_item items[4];
    int64_t heads[8], costs[8];
    uint8_t bytes[128];
    size_t count = dnorm_next(graph, 1, &places[0], arcs, 2).count;
    count += dnorm_next(graph, 1, &places[0], arcs + 2, 6).count;
    const dnorm_arc_columns wanted = {NULL, heads, NULL, NULL, costs};
    size_t columns = dnorm_columns(graph, 1, &places[1], wanted, 8).count;
    size_t length = dnorm_text(text, 0, bytes, sizeof bytes).count;
    if (count != 5 || columns != 5 || arcs[1].b != 4 || heads[3] != 3 || costs[0] != 6) return 0;
    if (dnorm_items(graph, &places[2], items, 4).count != 2 || items[1].a != -2) return 0;
    return length == strlen(canon) && !memcmp(bytes, canon, length);
}

/* Whether both calls put the flow on the lines, which six arguments that look like nine are as well. */
static int is_shared(const dnorm *graph) {
    dnorm_share shares[2];
    int64_t units[2][3];
    return dnorm_spread(graph, 1, flow, 5, rows, 3, shares, 2, units[0], 3).code == DNORM_FINE &&
           dnorm_spread(graph, 2, (const int64_t[]){5, 2, 1}, 3, &own_lines, units[1]).code == DNORM_FINE &&
           !memcmp(units[0], shared, sizeof shared) && !memcmp(units[1], shared, sizeof shared);
}

static void *read_both(void *given) {
    readings *it = given;
    for (long i = 0; i < it->times; i++) {
        dnorm text = DNORM_NONE, own = DNORM_NONE, own_text = DNORM_NONE;
        int is_right = dnorm_facts(it->graph).pairs == 2 && dnorm_arc_count(it->graph, 2).count == 3;
        is_right &= make_text(&own, &own_text).code == DNORM_FINE && is_copied(&own, &own_text);
        is_right &= dnorm_compare(it->graph, &own).what == DNORM_SAME;
        dnorm_free(&own_text);
        dnorm_free(&own);
        is_right &= dnorm_compare(it->graph, it->graph).what == DNORM_SAME;
        is_right &= dnorm_compare(it->graph, it->text).what == DNORM_NOT_BOTH;
        is_right &= dnorm_fits(it->graph, it->graph).code == DNORM_NOT_KINDS && is_shared(it->graph);
        is_right &= dnorm_canon(it->graph, 1, &text).code == DNORM_FINE && is_copied(it->graph, &text);
        dnorm_free(&text);
        it->wrong += !is_right;
    }
    return 0;
}

static int readers(long times) {
    pthread_t ids[3];
    dnorm graph = DNORM_NONE, text = DNORM_NONE;
    void *(*const steps[])(void *) = {feed_good, finish};
    dnorm_begin(&graph);
    for (int i = 0; i < 2; i++) {
        pthread_create(&ids[0], 0, steps[i], &graph);
        pthread_join(ids[0], 0);
    }
    dnorm_canon(&graph, 1, &text);
    readings all[3] = {{&graph, &text, times, 0}, {&graph, &text, times, 0}, {&graph, &text, times, 0}};
    for (int i = 0; i < 3; i++) pthread_create(&ids[i], 0, read_both, &all[i]);
    for (int i = 0; i < 3; i++) pthread_join(ids[i], 0);
    dnorm_free(&text);
    dnorm_free(&graph);
    return printf("%ld wrong\n", all[0].wrong + all[1].wrong + all[2].wrong), live != 0;
}

static int nulls(void) {
    dnorm graph = DNORM_NONE, text = DNORM_NONE, lines = DNORM_NONE;
    dnorm_place place = DNORM_FIRST;
    const dnorm_arc_columns none = {NULL, NULL, NULL, NULL, NULL};
    const dnorm_arc_lines no_lines = DNORM_NO_LINES;
    /* The function itself takes null, as those of other languages call it. */
    void (*volatile free_it)(dnorm *) = dnorm_free;
    free_it(NULL);
    int is_right = dnorm_begin(&graph).code == DNORM_FINE && dnorm_feed(&graph, NULL, 0).code == DNORM_FINE;
    feed(&graph, good);
    is_right &= dnorm_finish(&graph).code == DNORM_FINE && dnorm_next(&graph, 1, &place, NULL, 0).code == DNORM_FINE;
    is_right &= dnorm_columns(&graph, 1, &place, none, 0).count == 0;
    is_right &= dnorm_items(&graph, &place, NULL, 0).code == DNORM_FINE;
    is_right &= dnorm_lines_begin(&lines).code == DNORM_FINE;
    is_right &= dnorm_lines(&lines, NULL, 0, NULL, 0).code == DNORM_FINE;
    is_right &= dnorm_canon(&graph, 1, &graph).code == DNORM_WRONG_CALL && dnorm_facts(&graph).kind == DNORM_MIN;
    is_right &= dnorm_canon(&text, 1, &text).code == DNORM_WRONG_CALL && !text.full;
    is_right &= dnorm_canon(&graph, 1, &text).code == DNORM_FINE && dnorm_text(&text, 0, NULL, 0).code == DNORM_FINE;
    is_right &= place.pairs == 0 && place.within == 0;
    is_right &= dnorm_spread(&text, 1, NULL, 0, NULL, 0, NULL, 0, NULL, 0).code == DNORM_WRONG_CALL;
    is_right &= dnorm_spread(&graph, 1, NULL, 0, &no_lines, NULL).code == DNORM_NOT_A_FLOW;
    dnorm_free(&lines);
    dnorm_free(&text);
    dnorm_free(&graph);
    return puts(is_right ? "right" : "wrong"), live != 0;
}

/* A text, and whether each call for it was right. */
typedef struct given {
    char bytes[1 << 22];
    size_t length;
    int is_right;
} given;

/* Copies the canonical text of a graph into a reader, and returns whether the instance that it makes is the same. */
static int is_same_again(const dnorm *graph, int form) {
    dnorm text = DNORM_NONE, again = DNORM_NONE;
    uint8_t piece[512];
    int is_right = dnorm_canon(graph, form, &text).code == DNORM_FINE && dnorm_begin(&again).code == DNORM_FINE;
    for (size_t at = 0, count; (count = dnorm_text(&text, at, piece, sizeof piece).count); at += count)
        is_right &= dnorm_feed(&again, piece, count).code == DNORM_FINE;
    is_right &= dnorm_finish(&again).code == DNORM_FINE && dnorm_compare(graph, &again).what == DNORM_SAME;
    dnorm_fit fit = dnorm_fits(graph, &again);
    dnorm_free(&again);
    dnorm_free(&text);
    return is_right && fit.code == DNORM_NOT_KINDS;
}

static void *call_all(void *it) {
    given *text = it;
    dnorm graph = DNORM_NONE, lines = DNORM_NONE;
    dnorm_arc arcs[8];
    dnorm_row line[8];
    dnorm_item items[8];
    int64_t column[8];
    const dnorm_arc_columns tails = {column, NULL, NULL, NULL, NULL};
    dnorm_place places[3] = {DNORM_FIRST, DNORM_FIRST, DNORM_FIRST};
    int is_right = dnorm_begin(&graph).code == DNORM_FINE;
    for (size_t at = 0; at < text->length; at += 4096) {
        size_t rest = text->length - at;
        is_right &= dnorm_feed(&graph, (uint8_t *)text->bytes + at, rest < 4096 ? rest : 4096).code == DNORM_FINE;
    }
    is_right &= dnorm_finish(&graph).code == DNORM_FINE && dnorm_lines_begin(&lines).code == DNORM_FINE;
    for (size_t at = 0; at < text->length;) {
        dnorm_lines_given some = dnorm_lines(&lines, (uint8_t *)text->bytes + at, text->length - at, line, 8);
        is_right &= some.code == DNORM_FINE;
        at += some.code == DNORM_FINE ? some.used : text->length;
    }
    size_t rows = 0, cells = 0;
    for (size_t n; (n = dnorm_next(&graph, 1, &places[0], arcs, 8).count);) rows += n;
    for (size_t n; (n = dnorm_columns(&graph, 1, &places[1], tails, 8).count);) cells += n;
    is_right &= rows == dnorm_arc_count(&graph, 1).count && cells == rows;
    size_t wanted = dnorm_facts(&graph).items;
    is_right &= dnorm_items(&graph, &places[2], items, 8).count == (wanted < 8 ? wanted : 8);
    text->is_right = is_right && is_same_again(&graph, 1) && is_same_again(&graph, 2);
    dnorm_free(&lines);
    dnorm_free(&graph);
    return 0;
}

static int stack(void) {
    static given text;
    pthread_t id;
    pthread_attr_t small;
    text.length = fread(text.bytes, 1, sizeof text.bytes, stdin);
    pthread_attr_init(&small);
    pthread_attr_setstacksize(&small, STACK);
    if (pthread_create(&id, &small, call_all, &text)) return 1;
    pthread_join(id, 0);
    return puts(text.is_right ? "right" : "wrong"), live != 0;
}

int main(int count, char **words) {
    const char *mode = count > 1 ? words[1] : "";
    if (!strcmp(mode, "orders") && count > 2) return orders(atoi(words[2]));
    if (!strcmp(mode, "memory")) return memory();
    if (!strcmp(mode, "readers") && count > 2) return readers(atol(words[2]));
    if (!strcmp(mode, "nulls")) return nulls();
    if (!strcmp(mode, "stack")) return stack();
    return 2;
}
