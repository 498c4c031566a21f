/* dnorm_tools.h: what programs in C need around dnorm.h. Its functions are inline, and are tested, but not proved.

       dnorm_code_name, dnorm_code_sentence, dnorm_kind_name,
       dnorm_status_line                                           what a code, a kind or a status means, in words
       dnorm_read_fd, dnorm_read_file, dnorm_read_path             read a text to its end
       dnorm_read_lines_fd, dnorm_read_lines_file,
       dnorm_read_lines_path, dnorm_arc_lines_free                 read it with its arc lines
       dnorm_spread_lines, dnorm_write_flow                        put a flow on the arc lines, and write it
       dnorm_columns_32                                            copies arcs to columns of 32 bits
       dnorm_first_arcs                                            finds the arcs of each node
       dnorm_star_make, dnorm_star_reverse, dnorm_star_free        make a forward star, and the arcs into each node
       dnorm_star_32_make, dnorm_star_32_reverse,
       dnorm_star_32_free                                          the same of 32 bits
       dnorm_write, dnorm_problem_line, dnorm_item_line,
       dnorm_arc_line                                              write a text of items and arcs

   They keep the rules of dnorm.h for what they call, and the same rules hold for what they are given. They need POSIX
   or Windows, where they read all files as binary ones, and name them by the code page of the program. */
#ifndef DNORM_TOOLS_H
#define DNORM_TOOLS_H
#include "dnorm.h"
#include "dnorm_codes.h"
#include <errno.h>
#include <fcntl.h>
#include <inttypes.h>
#include <stdio.h>
#include <stdlib.h>
#ifdef _WIN32
#include <io.h>
#else
#include <unistd.h>
#endif

/* Codes that dnorm.h does not have. */
enum {
    /* A file could not be opened, or reading it failed; errno has the cause. */
    DNORM_READ = 31,
    /* DNORM_READS reads of a file returned bytes, and no end came. */
    DNORM_ENDLESS = 32,
    /* A number does not fit 32 bits. */
    DNORM_TOO_WIDE = 41
};

/* Converts a number, or what malloc returns, as C and C++ do it. */
#ifdef __cplusplus
#define DNORM_AS(type, value) static_cast<type>(value)
#else
#define DNORM_AS(type, value) ((type)(value))
#endif

/* How many bytes are read at a time, and after how many reads a file has no end. */
#define DNORM_PIECE 16384
#ifndef DNORM_READS
#define DNORM_READS (UINT64_C(1) << 40)
#endif
/* Room for each line that is written. */
#define DNORM_LINE 128

/* The codes that `dnorm help` does not list, as DNORM_CODES has those that it lists. */
#define DNORM_OTHER_CODES(ROW) \
    ROW(DNORM_FINE, "Fine", "The call did what it is for.") \
    ROW(DNORM_WRONG_CALL, "WrongCall", "The handle is not for this call.") \
    ROW(DNORM_TOO_WIDE, "TooWide", "A number does not fit 32 bits.") \
    ROW(DNORM_NOT_A_FLOW, "NotAFlow", "The flow is none on the arc lines, or these are of another text.")

/* Returns the name of a code, which is "Unknown" for a number that is none. */
DNORM_INLINE const char *dnorm_code_name(uint8_t code) {
#define DNORM_ROW(number, name, sentence) \
    case number: return name;
    switch (code) {
        DNORM_CODES(DNORM_ROW)
        DNORM_OTHER_CODES(DNORM_ROW)
    default: return "Unknown";
    }
#undef DNORM_ROW
}

/* Returns the sentence of a code, which is empty for a number that is none. */
DNORM_INLINE const char *dnorm_code_sentence(uint8_t code) {
#define DNORM_ROW(number, name, sentence) \
    case number: return sentence;
    switch (code) {
        DNORM_CODES(DNORM_ROW)
        DNORM_OTHER_CODES(DNORM_ROW)
    default: return "";
    }
#undef DNORM_ROW
}

/* Returns the name of a kind, as problem lines have it. It is empty for a number that is none. */
DNORM_INLINE const char *dnorm_kind_name(uint8_t kind) {
    const char *const names[] = {"", "min", "max", "sp", "ss", "p2p", "co"};
    return kind <= DNORM_CO ? names[kind] : "";
}

/* Writes what a status means to `out` as snprintf does, and returns the length of the whole line:
   `line 2: 13 NodeOutOfRange: A node is not in 1 to NODES; in a companion, below 1.`, or with `end: ` at the end of a
   text, or without a place. For a dnorm_count, give it a status with the same code and no place. */
DNORM_INLINE int dnorm_status_line(dnorm_status status, char *out, size_t room) {
    const char *name = dnorm_code_name(status.code), *sentence = dnorm_code_sentence(status.code);
    if (status.place == DNORM_AT_LINE)
        return snprintf(out, room, "line %" PRIu64 ": %d %s: %s", status.line, status.code, name, sentence);
    return snprintf(out, room, "%s%d %s: %s", status.place == DNORM_AT_END ? "end: " : "", status.code, name, sentence);
}

/* The arc lines of a text, in its order, in memory of malloc. */
typedef struct dnorm_arc_lines {
    dnorm_row *rows;
    /* How many there are, and for how many there is room. */
    size_t count, room;
} dnorm_arc_lines;

/* The first value of a dnorm_arc_lines, which owns nothing. */
#define DNORM_NO_LINES {NULL, 0, 0}

/* Frees what arc lines own. They then own nothing. */
DNORM_INLINE void dnorm_arc_lines_free(dnorm_arc_lines *lines) {
    const dnorm_arc_lines none = DNORM_NO_LINES;
    free(lines->rows);
    *lines = none;
}

/* Feeds a piece that dnorm_feed has taken to a reader of arc lines. A line with a fault by itself was refused before.
   Returns whether there is memory for the lines. */
DNORM_INLINE bool dnorm_inline_feed_lines(dnorm_handle *reader, dnorm_arc_lines *lines, const uint8_t *bytes,
                                          size_t length) {
    while (length > 0) {
        dnorm_lines_given given;
        if (lines->count == lines->room) {
            const size_t room = 2 * lines->room + DNORM_SOME;
            const bool fits = room < SIZE_MAX / sizeof(dnorm_row);
            void *const rows = fits ? realloc(lines->rows, room * sizeof(dnorm_row)) : NULL;
            if (!rows) return false;
            lines->rows = DNORM_AS(dnorm_row *, rows);
            lines->room = room;
        }
        given = dnorm_lines(reader, bytes, length, lines->rows + lines->count, lines->room - lines->count);
        if (given.code != DNORM_FINE) break;
        lines->count += given.count;
        bytes += given.used;
        length -= given.used;
    }
    return true;
}

/* Two readers that are fed the same pieces: of an instance, and of arc lines where these are wanted. */
typedef struct dnorm_inline_readers {
    dnorm_handle *graph;
    dnorm_handle reader;
    dnorm_arc_lines *lines;
    uint64_t reads;
} dnorm_inline_readers;

DNORM_INLINE dnorm_status dnorm_inline_begin(dnorm_inline_readers *both, dnorm_handle *graph, dnorm_arc_lines *lines) {
    const dnorm_inline_readers begun = {graph, DNORM_NONE, lines, 0};
    dnorm_status status = dnorm_begin(graph);
    *both = begun;
    if (lines && status.code == DNORM_FINE) {
        status = dnorm_lines_begin(&both->reader);
        if (status.code != DNORM_FINE) dnorm_free(graph);
    }
    return status;
}

/* Frees both readers, sets a code, and leaves errno as it is. */
DNORM_INLINE void dnorm_inline_fail(dnorm_inline_readers *both, dnorm_status *status, uint8_t code) {
    const dnorm_status failed = {code, DNORM_NO_PLACE, 0};
    const int cause = errno;
    dnorm_free(both->graph);
    dnorm_free(&both->reader);
    if (both->lines) dnorm_arc_lines_free(both->lines);
    *status = failed;
    errno = cause;
}

/* Feeds a piece to both. Returns whether they take another one. */
DNORM_INLINE bool dnorm_inline_both(dnorm_inline_readers *both, dnorm_status *status, const uint8_t *bytes,
                                    size_t length) {
    *status = dnorm_feed(both->graph, bytes, length);
    if (status->code != DNORM_FINE) return false;
    if (both->lines && !dnorm_inline_feed_lines(&both->reader, both->lines, bytes, length))
        dnorm_inline_fail(both, status, DNORM_MEMORY);
    else if (length > 0 && ++both->reads >= DNORM_READS)
        dnorm_inline_fail(both, status, DNORM_ENDLESS);
    return status->code == DNORM_FINE;
}

/* Ends both, unless they have failed. */
DNORM_INLINE dnorm_status dnorm_inline_finish(dnorm_inline_readers *both, dnorm_status status) {
    const uint8_t lf = '\n';
    if (!both->graph->full) return status;
    status = dnorm_finish(both->graph);
    if (both->lines && status.code == DNORM_FINE && !dnorm_inline_feed_lines(&both->reader, both->lines, &lf, 1))
        dnorm_inline_fail(both, &status, DNORM_MEMORY);
    dnorm_free(&both->reader);
    if (both->lines && status.code != DNORM_FINE) dnorm_arc_lines_free(both->lines);
    return status;
}

/* Windows reads an open file as a text or as bytes, and a byte 26 ends a text. Sets how, and returns how it was. */
#ifdef _WIN32
#define DNORM_BINARY _O_BINARY
#define DNORM_FILENO(file) _fileno(file)
DNORM_INLINE int dnorm_inline_mode(int fd, int mode) { return _setmode(fd, mode); }
#else
#define DNORM_BINARY 0
#define DNORM_FILENO(file) 0
DNORM_INLINE int dnorm_inline_mode(int fd, int mode) { return (void)fd, mode; }
#endif

/* Reads a text and its arc lines from a file descriptor to its end, as dnorm_read_fd does: both readers are fed the
   same bytes. `lines` owns nothing before, and nothing after any code but DNORM_FINE; dnorm_arc_lines_free frees it. */
DNORM_INLINE dnorm_status dnorm_read_lines_fd(dnorm_handle *graph, dnorm_arc_lines *lines, int fd) {
    uint8_t bytes[DNORM_PIECE];
    dnorm_inline_readers both;
    dnorm_status status = dnorm_inline_begin(&both, graph, lines);
    bool goes_on = status.code == DNORM_FINE;
    int mode;
    if (!goes_on) return status;
    mode = dnorm_inline_mode(fd, DNORM_BINARY);
    while (goes_on) {
        const int64_t length = read(fd, bytes, sizeof bytes);
        if (length > 0) goes_on = dnorm_inline_both(&both, &status, bytes, DNORM_AS(size_t, length));
        else if (length == 0) goes_on = false;
        else if (errno != EINTR) {
            dnorm_inline_fail(&both, &status, DNORM_READ);
            goes_on = false;
        }
    }
    dnorm_inline_mode(fd, mode);
    return dnorm_inline_finish(&both, status);
}

/* Reads a text and its arc lines from a stream to its end, as dnorm_read_lines_fd does. */
DNORM_INLINE dnorm_status dnorm_read_lines_file(dnorm_handle *graph, dnorm_arc_lines *lines, FILE *file) {
    uint8_t bytes[DNORM_PIECE];
    dnorm_inline_readers both;
    dnorm_status status = dnorm_inline_begin(&both, graph, lines);
    bool goes_on = status.code == DNORM_FINE;
    int mode;
    if (!goes_on) return status;
    mode = dnorm_inline_mode(DNORM_FILENO(file), DNORM_BINARY);
    while (goes_on) {
        const size_t length = fread(bytes, 1, sizeof bytes, file);
        const int cause = errno;
        const bool has_failed = ferror(file) != 0, is_interrupted = has_failed && cause == EINTR;
        if (is_interrupted) clearerr(file);
        /* A fault before a failure counts. */
        goes_on = dnorm_inline_both(&both, &status, bytes, length);
        if (goes_on && has_failed && !is_interrupted) {
            errno = cause;
            dnorm_inline_fail(&both, &status, DNORM_READ);
        }
        goes_on = goes_on && !(has_failed && !is_interrupted) && (is_interrupted || length == sizeof bytes);
    }
    dnorm_inline_mode(DNORM_FILENO(file), mode);
    return dnorm_inline_finish(&both, status);
}

/* How a file is opened: programs that another thread starts meanwhile do not get it, where the system can say so. In a
   text of Windows, a byte 26 would be the end. */
#ifdef _WIN32
#define DNORM_OPEN (_O_RDONLY | _O_BINARY | _O_NOINHERIT)
#elif defined(O_CLOEXEC)
#define DNORM_OPEN (O_RDONLY | O_CLOEXEC)
#else
#define DNORM_OPEN O_RDONLY
#endif

/* Reads the text in the file of this name and its arc lines, as dnorm_read_lines_fd does.
   Codes: also DNORM_READ if the file cannot be opened. */
DNORM_INLINE dnorm_status dnorm_read_lines_path(dnorm_handle *graph, dnorm_arc_lines *lines, const char *path) {
    const dnorm_status failed = {DNORM_READ, DNORM_NO_PLACE, 0};
    int fd, cause;
    dnorm_status status;
    do fd = open(path, DNORM_OPEN);
    while (fd < 0 && errno == EINTR);
    if (fd < 0) return failed;
    status = dnorm_read_lines_fd(graph, lines, fd);
    cause = errno;
    close(fd);
    errno = cause;
    return status;
}

/* Reads a text from a file descriptor to its end, and makes the instance in `graph`, which owns nothing before. If the
   text is refused, `graph` owns the refusal. A read that a signal interrupts is repeated.
   Codes: those of dnorm_begin and dnorm_finish; DNORM_READ if a read fails, DNORM_ENDLESS if no end comes, and `graph`
   owns nothing. */
DNORM_INLINE dnorm_status dnorm_read_fd(dnorm_handle *graph, int fd) { return dnorm_read_lines_fd(graph, NULL, fd); }

/* Reads a text from a stream to its end, as dnorm_read_fd does. */
DNORM_INLINE dnorm_status dnorm_read_file(dnorm_handle *graph, FILE *file) {
    return dnorm_read_lines_file(graph, NULL, file);
}

/* Reads the text in the file of this name, as dnorm_read_fd does.
   Codes: also DNORM_READ if the file cannot be opened. */
DNORM_INLINE dnorm_status dnorm_read_path(dnorm_handle *graph, const char *path) {
    return dnorm_read_lines_path(graph, NULL, path);
}

/* Returns memory of malloc for so many numbers or shares of this size, which free frees, or null. */
DNORM_INLINE void *dnorm_inline_numbers(uint64_t count, size_t size) {
    return count < SIZE_MAX / size - 1 ? malloc((DNORM_AS(size_t, count) + 1) * size) : NULL;
}

/* Puts a flow back on arc lines as dnorm_spread of dnorm.h does, which with these six arguments is this call: flow[i]
   is for the arc i, counted from 0, and units[i] becomes the flow of lines->rows[i]. It allocates the shares.
   Codes: those of dnorm_spread; DNORM_MEMORY, and nothing changed. */
DNORM_INLINE dnorm_status dnorm_spread_lines(const dnorm_handle *graph, uint8_t form, const int64_t *flow,
                                             size_t flow_count, const dnorm_arc_lines *lines, int64_t *units) {
    const uint64_t pairs = dnorm_facts(graph).pairs;
    void *const room = dnorm_inline_numbers(pairs, sizeof(dnorm_share));
    dnorm_status status = {DNORM_MEMORY, DNORM_NO_PLACE, 0};
    if (room)
        status = dnorm_spread(graph, form, flow, flow_count, lines->rows, lines->count, DNORM_AS(dnorm_share *, room),
                              DNORM_AS(size_t, pairs), units, lines->count);
    free(room);
    return status;
}

/* dnorm_spread has the ten arguments of dnorm.h, or the six of dnorm_spread_lines. Braces in one of the six may have up
   to three commas, which look like further arguments; more need parentheses around them. */
#define DNORM_SPREAD(graph, form, flow, flow_count, lines, a, b, c, d, e, call, ...) call
#undef dnorm_spread
#define dnorm_spread(...) \
    DNORM_SPREAD(__VA_ARGS__, dnorm_inline_spread, dnorm_spread_lines, dnorm_spread_lines, dnorm_spread_lines, \
                 dnorm_spread_lines, 0)(__VA_ARGS__)

/* Writes the units of each arc line to a stream, `f TAIL HEAD UNITS`, in the order of the text: there are as many units
   as lines. Returns whether the stream took all of it; if not, errno has the cause. */
DNORM_INLINE bool dnorm_write_flow(FILE *out, const dnorm_arc_lines *lines, const int64_t *units) {
    for (size_t i = 0; i < lines->count; i++)
        fprintf(out, "f %" PRId64 " %" PRId64 " %" PRId64 "\n", lines->rows[i].tail, lines->rows[i].head, units[i]);
    return fflush(out) == 0 && !ferror(out);
}

/* Columns of 32 bits for canonical arcs, as dnorm_arc_columns. */
typedef struct dnorm_arc_columns_32 {
    int32_t *tails, *heads, *a, *b, *c;
} dnorm_arc_columns_32;

/* Puts a number into a column of 32 bits, if that is wanted. Returns whether it fits. */
DNORM_INLINE bool dnorm_inline_narrow(int32_t *column, size_t at, int64_t number) {
    if (!column) return true;
    column[at] = DNORM_AS(int32_t, number);
    return column[at] == number;
}

/* Copies canonical arcs to columns as dnorm_columns does, with numbers of 32 bits. It stops before the first arc with a
   number that does not fit its column; what is in the columns behind the arcs before it may have changed.
   Codes: those of dnorm_columns; DNORM_TOO_WIDE at such an arc, and `count` arcs before it are copied. */
DNORM_INLINE dnorm_count dnorm_columns_32(const dnorm_handle *graph, uint8_t form, dnorm_place *place,
                                          dnorm_arc_columns_32 out, size_t room) {
    dnorm_arc arcs[DNORM_SOME];
    dnorm_count made = {0, DNORM_FINE}, some;
    size_t wanted;
    do {
        const dnorm_place before = *place;
        wanted = room - made.count < DNORM_SOME ? room - made.count : DNORM_SOME;
        some = dnorm_next(graph, form, place, arcs, wanted);
        made.code = some.code;
        for (size_t i = 0; i < some.count; i++, made.count++)
            if (!(dnorm_inline_narrow(out.tails, made.count, arcs[i].tail) &&
                  dnorm_inline_narrow(out.heads, made.count, arcs[i].head) &&
                  dnorm_inline_narrow(out.a, made.count, arcs[i].a) &&
                  dnorm_inline_narrow(out.b, made.count, arcs[i].b) &&
                  dnorm_inline_narrow(out.c, made.count, arcs[i].c))) {
                *place = before;
                dnorm_next(graph, form, place, arcs, i);
                made.code = DNORM_TOO_WIDE;
                return made;
            }
    } while (some.count == wanted && made.count < room);
    return made;
}

/* Finds where the canonical arcs of each node begin: those with the tail v have the indexes, counted from 0, from
   first[v - 1] to first[v], without the last one. Writes as many of the NODES + 1 numbers as there is room for. With
   heads and numbers by dnorm_columns or dnorm_columns_32, these are a forward star.
   Codes: those of dnorm_columns. */
DNORM_INLINE dnorm_count dnorm_first_arcs(const dnorm_handle *graph, uint8_t form, size_t *first, size_t room) {
    dnorm_arc some_arcs[DNORM_SOME];
    const uint64_t nodes = DNORM_AS(uint64_t, dnorm_facts(graph).nodes);
    const size_t wanted = nodes < room ? DNORM_AS(size_t, nodes) + 1 : room;
    size_t arcs = 0;
    dnorm_place place = DNORM_FIRST;
    dnorm_count made = {0, DNORM_FINE}, some;
    do {
        some = dnorm_next(graph, form, &place, some_arcs, DNORM_SOME);
        if (some.code != DNORM_FINE) return some;
        for (size_t i = 0; i < some.count; i++)
            for (; made.count < wanted && made.count < DNORM_AS(uint64_t, some_arcs[i].tail); made.count++)
                first[made.count] = arcs + i;
        arcs += some.count;
    } while (some.count == DNORM_SOME);
    for (; made.count < wanted; made.count++) first[made.count] = arcs;
    return made;
}

/* The canonical arcs of a graph by their tails, a forward star: those with the tail v, counted from 1, have the indexes
   from first[v - 1] to first[v], without the last one. */
typedef struct dnorm_star {
    int64_t nodes;
    size_t arcs;
    /* nodes + 1 numbers. */
    size_t *first;
    /* Columns of the arcs, as dnorm_columns copies them; b and c are null where the kind lacks them. */
    int64_t *tails, *heads, *a, *b, *c;
    /* Null before dnorm_star_reverse. The arcs with the head v have the indexes into[i], which ascend, for each i from
       into_first[v - 1] to into_first[v], without the last one. */
    size_t *into_first, *into;
} dnorm_star;

/* The same with numbers of 32 bits. */
typedef struct dnorm_star_32 {
    int32_t nodes, arcs;
    int32_t *first;
    int32_t *tails, *heads, *a, *b, *c;
    int32_t *into_first, *into;
} dnorm_star_32;

/* The first value of a dnorm_star or a dnorm_star_32, which owns nothing. */
#define DNORM_NO_STAR {0, 0, NULL, NULL, NULL, NULL, NULL, NULL, NULL, NULL}

/* Makes the forward star of a graph in form 1 or 2, in memory of malloc, which dnorm_star_free frees. It has NODES + 1
   numbers, and a text can declare any NODES: dnorm_facts tells how many before.
   Codes: DNORM_FINE; DNORM_MEMORY, DNORM_COUNT_TOO_LARGE and DNORM_WRONG_CALL, and `star` owns nothing. */
DNORM_INLINE dnorm_status dnorm_star_make(const dnorm_handle *graph, uint8_t form, dnorm_star *star);

/* Finds the arcs into each node.
   Codes: DNORM_FINE; DNORM_MEMORY, and `star` owns nothing. */
DNORM_INLINE dnorm_status dnorm_star_reverse(dnorm_star *star);

/* Frees what a forward star owns. It then owns nothing. */
DNORM_INLINE void dnorm_star_free(dnorm_star *star);

/* Makes a forward star of 32 bits, as dnorm_star_make does.
   Codes: also DNORM_TOO_WIDE if NODES, the number of arcs, or a number of an arc is above 2^31-1, or below -2^31. */
DNORM_INLINE dnorm_status dnorm_star_32_make(const dnorm_handle *graph, uint8_t form, dnorm_star_32 *star);

/* Finds the arcs into each node, as dnorm_star_reverse does. */
DNORM_INLINE dnorm_status dnorm_star_32_reverse(dnorm_star_32 *star);

/* Frees what a forward star of 32 bits owns. It then owns nothing. */
DNORM_INLINE void dnorm_star_32_free(dnorm_star_32 *star);

/* The functions of stars whose indexes and numbers have these types, of which no index is above `most`. */
#define DNORM_STAR_FUNCTIONS(star_type, index_type, number_type, columns_type, copy_columns, most, name, inner) \
    /* Counts how many arcs have an end up to each node: first[v] for each v from 0 to `nodes`. */ \
    DNORM_INLINE void inner##_first(const number_type *ends, size_t arcs, index_type *first, size_t nodes) { \
        for (size_t v = 0; v <= nodes; v++) first[v] = 0; \
        for (size_t at = 0; at < arcs; at++) first[ends[at]]++; \
        for (size_t v = 0; v < nodes; v++) first[v + 1] += first[v]; \
    } \
    DNORM_INLINE void inner##_into(const number_type *heads, size_t arcs, index_type *first, size_t nodes, \
                                   index_type *into) { \
        inner##_first(heads, arcs, first, nodes); \
        /* Each list is filled from its end, so that its beginning is known at last. */ \
        for (size_t at = arcs; at-- > 0;) into[--first[heads[at]]] = DNORM_AS(index_type, at); \
        for (size_t v = 0; v < nodes; v++) first[v] = first[v + 1]; \
        first[nodes] = DNORM_AS(index_type, arcs); \
    } \
    DNORM_INLINE void name##_free(star_type *star) { \
        const star_type none = DNORM_NO_STAR; \
        free(star->first); \
        free(star->heads); \
        free(star->a); \
        free(star->b); \
        free(star->c); \
        free(star->into_first); \
        free(star->into); \
        free(star->tails); \
        *star = none; \
    } \
    DNORM_INLINE dnorm_status name##_make(const dnorm_handle *graph, uint8_t form, star_type *star) { \
        const dnorm_summary facts = dnorm_facts(graph); \
        const dnorm_count arcs = dnorm_arc_count(graph, form); \
        const bool has_all = facts.kind == DNORM_MIN; \
        const uint64_t nodes = DNORM_AS(uint64_t, facts.nodes); \
        star_type made = DNORM_NO_STAR; \
        dnorm_status status = {arcs.code, DNORM_NO_PLACE, 0}; \
        dnorm_place place = DNORM_FIRST; \
        columns_type out = {NULL, NULL, NULL, NULL, NULL}; \
        *star = made; \
        if (arcs.code == DNORM_FINE && (nodes > (most) || arcs.count > (most))) status.code = DNORM_TOO_WIDE; \
        if (status.code != DNORM_FINE) return status; \
        made.nodes = DNORM_AS(number_type, nodes); \
        made.arcs = DNORM_AS(index_type, arcs.count); \
        made.first = DNORM_AS(index_type *, dnorm_inline_numbers(nodes, sizeof(index_type))); \
        out.tails = made.tails = DNORM_AS(number_type *, dnorm_inline_numbers(arcs.count, sizeof(number_type))); \
        out.heads = made.heads = DNORM_AS(number_type *, dnorm_inline_numbers(arcs.count, sizeof(number_type))); \
        out.a = made.a = DNORM_AS(number_type *, dnorm_inline_numbers(arcs.count, sizeof(number_type))); \
        if (has_all) { \
            out.b = made.b = DNORM_AS(number_type *, dnorm_inline_numbers(arcs.count, sizeof(number_type))); \
            out.c = made.c = DNORM_AS(number_type *, dnorm_inline_numbers(arcs.count, sizeof(number_type))); \
        } \
        status.code = DNORM_MEMORY; \
        if (made.first && made.tails && made.heads && made.a && (!has_all || (made.b && made.c))) \
            status.code = copy_columns(graph, form, &place, out, arcs.count).code; \
        if (status.code != DNORM_FINE) { \
            name##_free(&made); \
            return status; \
        } \
        inner##_first(made.tails, arcs.count, made.first, nodes); \
        *star = made; \
        return status; \
    } \
    DNORM_INLINE dnorm_status name##_reverse(star_type *star) { \
        const size_t nodes = DNORM_AS(size_t, star->nodes), arcs = DNORM_AS(size_t, star->arcs); \
        dnorm_status status = {DNORM_FINE, DNORM_NO_PLACE, 0}; \
        free(star->into_first); \
        free(star->into); \
        star->into_first = DNORM_AS(index_type *, dnorm_inline_numbers(nodes, sizeof(index_type))); \
        star->into = DNORM_AS(index_type *, dnorm_inline_numbers(arcs, sizeof(index_type))); \
        if (!star->into_first || !star->into) { \
            name##_free(star); \
            status.code = DNORM_MEMORY; \
            return status; \
        } \
        inner##_into(star->heads, arcs, star->into_first, nodes, star->into); \
        return status; \
    }
DNORM_STAR_FUNCTIONS(dnorm_star, size_t, int64_t, dnorm_arc_columns, dnorm_columns, SIZE_MAX, dnorm_star,
                     dnorm_inline_star)
DNORM_STAR_FUNCTIONS(dnorm_star_32, int32_t, int32_t, dnorm_arc_columns_32, dnorm_columns_32, INT32_MAX, dnorm_star_32,
                     dnorm_inline_star_32)
#undef DNORM_STAR_FUNCTIONS

/* Writes the problem line of a text of this kind to `out`, with a byte 0 behind it, and returns its length. `nodes` is
   for a graph alone, `count` is the number of arcs, items or points. It is empty for a kind that is none. */
DNORM_INLINE int dnorm_problem_line(uint8_t kind, int64_t nodes, size_t count, char out[DNORM_LINE]) {
    const char *const name = dnorm_kind_name(kind);
    out[0] = 0;
    if (!*name) return 0;
    if (kind >= DNORM_SS) return snprintf(out, DNORM_LINE, "p aux sp %s %zu\n", name, count);
    return snprintf(out, DNORM_LINE, "p %s %" PRId64 " %zu\n", name, nodes, count);
}

/* Writes the line of an item, or the two lines of the source and the sink, as dnorm_problem_line does. */
DNORM_INLINE int dnorm_item_line(uint8_t kind, dnorm_item item, char out[DNORM_LINE]) {
    const int64_t id = item.id, a = item.a, b = item.b;
    switch (kind) {
    case DNORM_MIN: return snprintf(out, DNORM_LINE, "n %" PRId64 " %" PRId64 "\n", id, a);
    case DNORM_MAX: return snprintf(out, DNORM_LINE, "n %" PRId64 " s\nn %" PRId64 " t\n", id, a);
    case DNORM_SS: return snprintf(out, DNORM_LINE, "s %" PRId64 "\n", id);
    case DNORM_P2P: return snprintf(out, DNORM_LINE, "q %" PRId64 " %" PRId64 "\n", id, a);
    case DNORM_CO: return snprintf(out, DNORM_LINE, "v %" PRId64 " %" PRId64 " %" PRId64 "\n", id, a, b);
    default: out[0] = 0; return 0;
    }
}

/* Writes the line of an arc, as dnorm_problem_line does. */
DNORM_INLINE int dnorm_arc_line(uint8_t kind, dnorm_arc arc, char out[DNORM_LINE]) {
    const int64_t tail = arc.tail, head = arc.head, number = arc.a;
    int length = snprintf(out, DNORM_LINE, "a %" PRId64 " %" PRId64 " %" PRId64, tail, head, number);
    if (kind == DNORM_MIN)
        length += snprintf(out + length, DNORM_LINE - DNORM_AS(size_t, length), " %" PRId64 " %" PRId64, arc.b, arc.c);
    out[length++] = '\n';
    out[length] = 0;
    return length;
}

/* Writes a text to a stream, with these items and arcs in their order, as dnorm_items and dnorm_next have them: `nodes`
   and `arcs` are for a graph alone. What it is given is not judged: a reader judges the text. Returns whether the
   stream took all of it; if not, errno has the cause, which is EINVAL for a kind that is none. */
DNORM_INLINE bool dnorm_write(FILE *out, uint8_t kind, int64_t nodes, const dnorm_item *items, size_t item_count,
                              const dnorm_arc *arcs, size_t arc_count) {
    char line[DNORM_LINE];
    if (dnorm_problem_line(kind, nodes, kind >= DNORM_SS ? item_count : arc_count, line) == 0) {
        errno = EINVAL;
        return false;
    }
    fputs(line, out);
    for (size_t i = 0; i < item_count; i++) {
        dnorm_item_line(kind, items[i], line);
        fputs(line, out);
    }
    for (size_t i = 0; kind < DNORM_SS && i < arc_count; i++) {
        dnorm_arc_line(kind, arcs[i], line);
        fputs(line, out);
    }
    return fflush(out) == 0 && !ferror(out);
}
#undef DNORM_AS
#endif
