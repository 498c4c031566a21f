/* dnorm: reads DIMACS network instances (`min`, `max`, `sp`, and the companions `ss`, `p2p`, `co`), copies them out,
   prints their canonical texts, and compares them.

   A text is fed in pieces to a reader, whose end makes an instance or a refusal:

       dnorm graph = DNORM_NONE;
       dnorm_status status = dnorm_begin(&graph);
       while (status.code == DNORM_FINE && there are more bytes)
           status = dnorm_feed(&graph, bytes, length);
       if (status.code == DNORM_FINE)
           status = dnorm_finish(&graph);
       ..
       dnorm_free(&graph);

   Each function is proved to do what its comment says, if the caller keeps these rules, which nothing checks:

   1. A `dnorm` begins as DNORM_NONE, which is all zeros. Only these functions change it. It is passed by its address,
      and is not copied: both copies would own the same memory. A move is allowed if the old place is not used again.
   2. A pointer is not null, is aligned, and points to as many items as the number after it says. What a call may change
      overlaps nothing else that it is given, and nothing else uses it during the call.
   3. A call that takes a `dnorm *` is the only one that uses that `dnorm`. Calls that take a `const dnorm *` may use
      one `dnorm` at the same time, in any threads. A `dnorm` may go to another thread, in an order that a lock, or the
      start or the join of a thread gives.
   4. malloc, realloc and free belong to one allocator. No function is called from a signal handler.
   5. A call needs 32 kB of stack, whatever it is given.

   The order of calls is free: a call that a `dnorm` is not for changes nothing, and returns DNORM_WRONG_CALL. The three
   whose result has no such code return the kind DNORM_NO_KIND (dnorm_facts), or DNORM_NOT_BOTH (dnorm_compare and
   dnorm_fits).

   The arc lines of the text, which the instance does not keep, come from another reader (dnorm_lines_begin). The inline
   functions of dnorm_tools.h feed both. dnorm_spread puts a flow on canonical arcs back on the arc lines.

   Some things are tested, and not proved. Of rule 3 it is proved that a call with a `const dnorm *` has that `dnorm`
   on loan, that a loan can be given any number of times, and that nothing is written through it; that several threads
   read one `dnorm` at once is tested. So are these: dnorm_finish frees the reader, and dnorm_free all memory that a
   `dnorm` owns. No call opens a file, writes to a stream, or keeps anything outside of the `dnorm` that it is given,
   and no byte of a piece is kept. No call needs more stack than rule 5 says. dnorm_facts takes the same time for any
   instance; dnorm_arc_count walks over the pairs; dnorm_next and dnorm_items search for their place, and then walk over
   what they copy. Nor are the inline functions proved: dnorm_columns, and the macros at the end of dnorm.h, which allow
   null pointers where there is no room. That dnorm_free takes null is tested as well. */
#ifndef DNORM_H
#define DNORM_H
#include <stdbool.h>
#include <stddef.h>
#include <stdint.h>
/* R's Rmath.h defines a macro `dnorm`. Beside it, this struct is called dnorm_handle, whichever file comes first. */
#pragma push_macro("dnorm")
#undef dnorm
#ifdef __cplusplus
extern "C" {
#endif

/* Addresses have 64 bits in all that the library declares. */
#if SIZE_MAX < UINT64_MAX
#error "libdnorm needs a compiler for a machine of 64 bits"
#endif

/* The number of the interface that this file declares, which the name of the shared library ends with:

       1   libdnorm.so.1   1.2 and 1.3
       2   libdnorm.so.2   2.0
       3   libdnorm.so.3   3.0 and 3.1 */
#define DNORM_ABI 3

/* The version of this file: 10000 times its first number, 100 times its second, and its third. */
#define DNORM_VERSION 30100

/* Owns nothing, a reader, an instance, a refusal, a canonical text, or a reader of arc lines. Its members are the
   library's. */
typedef struct dnorm {
    void *work;
    bool full;
} dnorm;
typedef dnorm dnorm_handle;

/* The first value of a `dnorm`, which owns nothing. In C it is an initialiser; `(dnorm)DNORM_NONE` is a value. */
#ifdef __cplusplus
#define DNORM_NONE \
    dnorm_handle {}
#else
#define DNORM_NONE {0, 0}
#endif

/* Codes of a dnorm_status. 1 to 21 are the refusals of a text, by their numbers in `dnorm help`. */
enum {
    DNORM_FINE = 0,
    DNORM_BAD_LINE = 1,
    DNORM_EARLY_LINE = 2,
    DNORM_SECOND_PROBLEM = 3,
    DNORM_UNKNOWN_PROBLEM = 4,
    DNORM_WRONG_LINE = 5,
    DNORM_LATE_NODE = 6,
    DNORM_TOO_MANY_LINES = 7,
    DNORM_FIELD_COUNT = 8,
    DNORM_NOT_A_NUMBER = 9,
    DNORM_OUT_OF_RANGE = 10,
    DNORM_NEGATIVE = 11,
    DNORM_BAD_TERMINAL = 12,
    DNORM_NODE_OUT_OF_RANGE = 13,
    DNORM_REPEATED_NODE = 14,
    DNORM_SAME_TERMINAL = 15,
    DNORM_LOW_ABOVE_CAP = 16,
    DNORM_SUM_TOO_LARGE = 17,
    DNORM_NO_PROBLEM = 18,
    DNORM_MISSING_TERMINAL = 19,
    DNORM_TOO_FEW_LINES = 20,
    DNORM_TOO_LONG = 21,
    /* An allocation failed. */
    DNORM_MEMORY = 30,
    /* The canonical text has more than 2^63-1 counted lines, or there are 2^64 arcs or more (dnorm_arc_count). */
    DNORM_COUNT_TOO_LARGE = 34,
    /* The `dnorm` is not for this call, and nothing changed. */
    DNORM_WRONG_CALL = 40,
    /* The flow is none, or the lines are those of another text (dnorm_spread). */
    DNORM_NOT_A_FLOW = 42
};

/* Places of a refusal. */
enum { DNORM_NO_PLACE = 0, DNORM_AT_LINE = 1, DNORM_AT_END = 2 };

/* Whether a call did what its comment says, or why not. */
typedef struct dnorm_status {
    uint8_t code;
    /* Whether `line` is refused, or the text at its end, or neither. */
    uint8_t place;
    /* The refused line, counted from 1; 0 at any other place. */
    uint64_t line;
} dnorm_status;

/* How many arcs, items or bytes a call copied or counted. */
typedef struct dnorm_count {
    /* Fewer than there is room for at the end; 0 with any code but DNORM_FINE. */
    size_t count;
    /* DNORM_FINE; DNORM_WRONG_CALL, where nothing changed; DNORM_COUNT_TOO_LARGE (dnorm_arc_count). */
    uint8_t code;
} dnorm_count;

/* Kinds of instances. */
enum { DNORM_NO_KIND = 0, DNORM_MIN = 1, DNORM_MAX = 2, DNORM_SP = 3, DNORM_SS = 4, DNORM_P2P = 5, DNORM_CO = 6 };

/* What an instance is, in numbers; of a reader, what the problem line of its text declares. */
typedef struct dnorm_summary {
    uint8_t kind;
    /* NODES, or 0 for a companion. */
    int64_t nodes;
    /* The number of arcs, items or points that were read; of a reader, that are declared. */
    int64_t lines;
    /* The number of ordered pairs that have canonical arcs, or 0 for a companion and for a reader. Each has one arc in
       `sp` and `max`, and one or more in `min`: dnorm_arc_count counts the arcs. */
    uint64_t pairs;
    /* The number of items, which dnorm_items copies; 0 for a reader. */
    uint64_t items;
} dnorm_summary;

/* A canonical arc: its nodes, and its numbers in the order of its line. These are the length (`sp`), the capacity
   (`max`), or the lower bound, the capacity and the cost of a unit (`min`); those that a kind lacks are 0. */
typedef struct dnorm_arc {
    int64_t tail, head;
    int64_t a, b, c;
} dnorm_arc;

/* A place between two canonical arcs, or between two items. All zeros, DNORM_FIRST, is the place before the first one;
   only dnorm_next, dnorm_columns and dnorm_items move it. A place belongs to one instance and one form. Any other place
   is harmless: a call copies some arcs or items of the instance, or none, and never more than there is room for. */
typedef struct dnorm_place {
    /* So many pairs, or items, are before it. */
    size_t pairs;
    /* Whether arcs of the next pair are before it, and the numbers of the last of them; whether items are before it,
       and in `a` the ID of the last of them. */
    uint64_t within;
    int64_t a, b, c;
} dnorm_place;

/* The place before the first arc or item. In C it is an initialiser; `(dnorm_place)DNORM_FIRST` is a value. */
#ifdef __cplusplus
#define DNORM_FIRST \
    dnorm_place {}
#else
#define DNORM_FIRST {0, 0, 0, 0, 0}
#endif

/* What an instance has beside its arcs. In `min` an item is a node, `id`, and its flow, `a`, which is not 0; `max` has
   one item, whose `id` is the source and whose `a` is the sink; in `ss` an item is an ID, in `p2p` two, `id` and `a`;
   in `co` it is an ID, x, `a`, and y, `b`. Numbers that a kind lacks are 0. */
typedef struct dnorm_item {
    int64_t id;
    int64_t a, b;
} dnorm_item;

/* What a dnorm_difference is about. */
enum {
    DNORM_SAME = 0,
    DNORM_KINDS_DIFFER = 1,
    DNORM_NODES_DIFFER = 2,
    DNORM_SUPPLY_DIFFERS = 3,
    DNORM_SOURCE_DIFFERS = 4,
    DNORM_SINK_DIFFERS = 5,
    DNORM_PAIR_DIFFERS = 6,
    DNORM_LENGTH_DIFFERS = 7,
    DNORM_ITEM_DIFFERS = 8,
    DNORM_POINT_DIFFERS = 9,
    DNORM_NOT_BOTH = 255
};

/* A whole number of 128 bits: `high` times 2^64, and `low`. */
typedef struct dnorm_value {
    /* Whether there is a number; all is 0 if there is none. */
    bool known;
    int64_t high;
    uint64_t low;
} dnorm_value;

/* Where two instances first differ, as `dnorm compare` says it. */
typedef struct dnorm_difference {
    uint8_t what;
    /* The node (DNORM_SUPPLY_DIFFERS), the tail (DNORM_PAIR_DIFFERS) or the ID (DNORM_POINT_DIFFERS); 0 otherwise. */
    int64_t at;
    /* The head (DNORM_PAIR_DIFFERS); 0 otherwise. */
    int64_t to;
    /* The item, counted from 1 (DNORM_ITEM_DIFFERS); 0 otherwise. */
    uint64_t index;
    /* The least amount at which the least costs of a pair differ (DNORM_PAIR_DIFFERS of `min`); 0 otherwise. */
    int64_t amount;
    /* The values of the left and of the right instance: the kind, NODES, the flow, the source or the sink, the number
       of items; of a pair, the least length, which is not known without an arc, the capacity, or the least cost of the
       amount, which is not known if the amount is infeasible. Items and points have none. */
    dnorm_value left, right;
} dnorm_difference;

/* Codes of a dnorm_fit: the companion fits, names a node that is not in the graph, or is not one. */
enum { DNORM_FITS = 0, DNORM_NOT_IN_GRAPH = 35, DNORM_NOT_KINDS = 36 };

/* Whether a companion fits a graph. */
typedef struct dnorm_fit {
    /* DNORM_FITS, or why not; DNORM_NOT_BOTH if there are no two instances. */
    uint8_t code;
    /* The first node that is not in the graph (DNORM_NOT_IN_GRAPH): in the order of the text for `ss` and `p2p`, and
       the least for `co`; 0 otherwise. */
    int64_t node;
} dnorm_fit;

/* An arc line of a text: the number of the line, counted from 1, its nodes, and its numbers as in dnorm_arc. */
typedef struct dnorm_row {
    uint64_t line;
    int64_t tail, head, a, b, c;
} dnorm_row;

/* What dnorm_lines took and gave. */
typedef struct dnorm_lines_given {
    /* How many bytes it took, and how many arc lines it wrote. */
    size_t used, count;
    /* DNORM_FINE, the fault of a line by itself, or DNORM_WRONG_CALL. */
    uint8_t code;
    /* The line that has the fault, counted from 1; 0 otherwise. */
    uint64_t line;
} dnorm_lines_given;

/* What the lines of a pair have yet to share: room for dnorm_spread to work in. */
typedef struct dnorm_share {
    int64_t cost, rest, left;
} dnorm_share;

/* Makes a reader in `reader`, which owns nothing before.
   Codes: DNORM_FINE; DNORM_MEMORY, and it owns nothing; DNORM_WRONG_CALL if it owns anything, which it keeps. */
dnorm_status dnorm_begin(dnorm *reader);

/* Feeds the next piece of the text. A piece may end anywhere, also in a word, and may be empty.
   Codes: DNORM_FINE; the first fault of the text, as soon as its line is complete; DNORM_MEMORY. Once it returned a
   fault or DNORM_MEMORY, so does every later call, and dnorm_finish. DNORM_WRONG_CALL if there is no reader. */
dnorm_status dnorm_feed(dnorm *reader, const uint8_t *bytes, size_t length);

/* Ends the text, and frees the reader. `reader` then owns the instance, or, if there is none, the refusal.
   Codes: DNORM_FINE; the first fault of the text; DNORM_MEMORY; DNORM_WRONG_CALL if there is no reader. */
dnorm_status dnorm_finish(dnorm *reader);

/* Makes a reader of arc lines in `reader`, as dnorm_begin makes a reader of an instance. It checks each line by itself,
   and keeps only the kind of the problem line, so it takes a text for right that dnorm_feed refuses: ask both. */
dnorm_status dnorm_lines_begin(dnorm *reader);

/* Feeds the next bytes of the text, and writes the arc lines among the lines that end in them to `out`, in the order of
   the text. It takes all bytes, unless it has filled `out`: then feed it the others, with room. What `out` has behind
   the lines that are counted does not change. Feed an LF behind the last byte of the text, so that its last line ends.
   Codes: DNORM_FINE; 1 to 5, 8 to 12 or 21 for the first line that has this fault by itself: no more bytes are taken
   after it. DNORM_WRONG_CALL if there is no reader of arc lines. */
dnorm_lines_given dnorm_lines(dnorm *reader, const uint8_t *bytes, size_t length, dnorm_row *out, size_t room);

/* Returns what the instance is, or what the problem line declares once a reader has read it. There is no code: the kind
   is DNORM_NO_KIND for any other `dnorm`. */
dnorm_summary dnorm_facts(const dnorm *any);

/* Counts the canonical arcs in form 1 or 2. Any form but 2 is form 1. Forms matter only for `min`: form 1 has separate
   arcs for forced units and for free capacity, and form 2 has one arc for each cost of a pair.
   Codes: DNORM_FINE; DNORM_COUNT_TOO_LARGE if there are 2^64 arcs or more; DNORM_WRONG_CALL if there is no graph. */
dnorm_count dnorm_arc_count(const dnorm *graph, uint8_t form);

/* Copies canonical arcs in form 1 or 2 to `out`, from the one after `place` on, in the order of the canonical text, as
   far as there is room, and moves `place` behind them. It copies fewer than there is room for only if no arc is left.
   Items of `out` behind these may have changed as well.
   Codes: DNORM_FINE; DNORM_WRONG_CALL if there is no graph. */
dnorm_count dnorm_next(const dnorm *graph, uint8_t form, dnorm_place *place, dnorm_arc *out, size_t room);

/* Copies what the instance has beside its arcs to `out`, from the item after `place` on, as dnorm_next copies arcs:
   flows by ascending node, the source with the sink, items in the order of the text, points by ascending ID.
   Codes: DNORM_FINE; DNORM_WRONG_CALL if there is no instance. */
dnorm_count dnorm_items(const dnorm *instance, dnorm_place *place, dnorm_item *out, size_t room);

/* Makes the canonical text of the instance, in form 1 or 2, in `text`, another `dnorm`, which owns nothing before.
   Codes: DNORM_FINE; DNORM_MEMORY and DNORM_COUNT_TOO_LARGE, and `text` owns nothing; DNORM_WRONG_CALL if there is no
   instance, or `text` owns anything. */
dnorm_status dnorm_canon(const dnorm *instance, uint8_t form, dnorm *text);

/* Copies the bytes of a text to `out`, from the one at `from`, counted from 0, as far as there is room. It copies fewer
   than there is room for only at the end of the text. What `out` has behind the bytes that are counted does not change.
   Codes: DNORM_FINE; DNORM_WRONG_CALL if there is no text. */
dnorm_count dnorm_text(dnorm *text, size_t from, uint8_t *out, size_t room);

/* Returns where two instances first differ: DNORM_SAME if they pose the same problem. There is no code: `what` is
   DNORM_NOT_BOTH if one of them is no instance. */
dnorm_difference dnorm_compare(const dnorm *left, const dnorm *right);

/* Returns whether `companion` is an `ss`, `p2p` or `co` instance that names only nodes of `graph`, an `sp` instance.
   There is no other code than that of a dnorm_fit. */
dnorm_fit dnorm_fits(const dnorm *graph, const dnorm *companion);

/* Puts a flow on the canonical arcs of a graph, in form 1 or 2, back on the arc lines of its text. `flow` has the
   units of each arc, in the order of dnorm_next, and `units` gets those of each line, from its lower bound to its
   capacity (in `sp` from 0 to 2^63-1). The lines of a pair have the units of its arcs. Of two lines of a pair, the one
   that costs less (in `sp` the shorter one; of equal ones the first in the text) is full, or the other one has its
   lower bound. It is well known that no units of the lines that are this flow cost less then; no law says so. Sums of
   pairs count alone: the bounds of single arcs, and supplies, are not looked at. `shares` is room to work in: one
   share for each pair that dnorm_facts counts. What is in it does not matter.
   Codes: DNORM_FINE; the lines are then as many as dnorm_facts tells, in the order of a text. DNORM_NOT_A_FLOW if no
   units of the lines are this flow, or the lines are not those of the graph; if `flow` has not as many numbers as
   there are arcs, or a negative one; or if a pair has more than 2^63-1 units. `units` and `shares` may have changed.
   DNORM_WRONG_CALL if there is no graph, there are fewer shares than pairs, or not as many units as lines; `units` is
   as it was, and so is, as is tested and not proved, `shares`. */
dnorm_status dnorm_spread(const dnorm *graph, uint8_t form, const int64_t *flow, size_t flow_count,
                          const dnorm_row *lines, size_t line_count, dnorm_share *shares, size_t share_count,
                          int64_t *units, size_t unit_count);

/* Frees what it owns. It then owns nothing, and may be used anew. Nothing happens if `any` is null. */
void dnorm_free(dnorm *any);

#ifdef __cplusplus
}
#endif

/* C++ has one such function in a program, and C one in each of its files. */
#ifdef __cplusplus
#define DNORM_INLINE inline
#else
#define DNORM_INLINE static inline
#endif

/* Columns for canonical arcs, each with the same room: their tails, heads and numbers, as dnorm_arc has them. A column
   that is null is not wanted. */
typedef struct dnorm_arc_columns {
    int64_t *tails, *heads, *a, *b, *c;
} dnorm_arc_columns;

/* How many arcs inline functions copy at a time. */
#define DNORM_SOME 256

/* Copies canonical arcs in form 1 or 2 as dnorm_next does, each number to a column of its own. */
DNORM_INLINE dnorm_count dnorm_columns(const dnorm *graph, uint8_t form, dnorm_place *place, dnorm_arc_columns out,
                                       size_t room) {
#define DNORM_COPY(column, number) \
    for (i = 0; out.column && i < some.count; i++) out.column[made.count + i] = arcs[i].number
    dnorm_arc arcs[DNORM_SOME];
    dnorm_count made = {0, DNORM_FINE}, some;
    size_t wanted, i;
    do {
        wanted = room - made.count < DNORM_SOME ? room - made.count : DNORM_SOME;
        some = dnorm_next(graph, form, place, arcs, wanted);
        DNORM_COPY(tails, tail);
        DNORM_COPY(heads, head);
        DNORM_COPY(a, a);
        DNORM_COPY(b, b);
        DNORM_COPY(c, c);
        made.count += some.count;
        made.code = some.code;
    } while (some.count == wanted && made.count < room);
    return made;
#undef DNORM_COPY
}

/* The macros below have the names of functions, and call them by inline functions. By them a pointer may also be null
   where its number is 0; and dnorm_canon of a `dnorm` into itself is DNORM_WRONG_CALL. `(dnorm_feed)(reader, bytes,
   length)` calls the function alone. */
DNORM_INLINE dnorm_status dnorm_inline_feed(dnorm *reader, const uint8_t *bytes, size_t length) {
    const uint8_t none = 0;
    return dnorm_feed(reader, length ? bytes : &none, length);
}

DNORM_INLINE dnorm_count dnorm_inline_next(const dnorm *graph, uint8_t form, dnorm_place *place, dnorm_arc *out,
                                           size_t room) {
    dnorm_arc none;
    return dnorm_next(graph, form, place, room ? out : &none, room);
}

DNORM_INLINE dnorm_count dnorm_inline_items(const dnorm *instance, dnorm_place *place, dnorm_item *out, size_t room) {
    dnorm_item none;
    return dnorm_items(instance, place, room ? out : &none, room);
}

DNORM_INLINE dnorm_status dnorm_inline_canon(const dnorm *instance, uint8_t form, dnorm *text) {
    const dnorm_status wrong_call = {DNORM_WRONG_CALL, DNORM_NO_PLACE, 0};
    return instance == text ? wrong_call : dnorm_canon(instance, form, text);
}

DNORM_INLINE dnorm_count dnorm_inline_text(dnorm *text, size_t from, uint8_t *out, size_t room) {
    uint8_t none;
    return dnorm_text(text, from, room ? out : &none, room);
}

DNORM_INLINE dnorm_lines_given dnorm_inline_lines(dnorm *reader, const uint8_t *bytes, size_t length, dnorm_row *out,
                                                  size_t room) {
    const uint8_t none = 0;
    dnorm_row no_row;
    return dnorm_lines(reader, length ? bytes : &none, length, room ? out : &no_row, room);
}

DNORM_INLINE dnorm_status dnorm_inline_spread(const dnorm *graph, uint8_t form, const int64_t *flow, size_t flow_count,
                                              const dnorm_row *lines, size_t line_count, dnorm_share *shares,
                                              size_t share_count, int64_t *units, size_t unit_count) {
    const int64_t no_flow = 0;
    const dnorm_row no_row = {0, 0, 0, 0, 0, 0};
    dnorm_share no_share;
    int64_t no_units;
    return dnorm_spread(graph, form, flow_count ? flow : &no_flow, flow_count, line_count ? lines : &no_row, line_count,
                        share_count ? shares : &no_share, share_count, unit_count ? units : &no_units, unit_count);
}

#define dnorm_feed(...) dnorm_inline_feed(__VA_ARGS__)
#define dnorm_next(...) dnorm_inline_next(__VA_ARGS__)
#define dnorm_items(...) dnorm_inline_items(__VA_ARGS__)
#define dnorm_canon(...) dnorm_inline_canon(__VA_ARGS__)
#define dnorm_text(...) dnorm_inline_text(__VA_ARGS__)
#define dnorm_lines(...) dnorm_inline_lines(__VA_ARGS__)
#define dnorm_spread(...) dnorm_inline_spread(__VA_ARGS__)
#pragma pop_macro("dnorm")
#endif
