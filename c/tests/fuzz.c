/* Fuzzes the library through its headers, by libFuzzer: `make fuzz` at the top. An input is a text, behind bytes that
   say how it is cut into pieces, how much room calls get, where a walk begins, which flow the lines get, and which
   allocation fails. The first property of dnorm.h or dnorm_tools.h that does not hold ends the run. */
#include <dnorm_tools.h>
#include <stdlib.h>
#include <string.h>

#define HOLDS(what) \
    ((what) ? (void)0 : (fprintf(stderr, "%s:%d: %s does not hold\n", __FILE__, __LINE__, #what), abort()))
#define MOST 4096

/* How many allocations are left until one fails; none does below 0. The linker gives the library these in place of
   malloc and realloc (-Wl,--wrap). */
static long left = -1;
void *__real_malloc(size_t size);
void *__real_realloc(void *block, size_t size);
void *__wrap_malloc(size_t size) { return left >= 0 && left-- == 0 ? NULL : __real_malloc(size); }
void *__wrap_realloc(void *block, size_t size) { return left >= 0 && left-- == 0 ? NULL : __real_realloc(block, size); }

static int same(dnorm_status one, dnorm_status other) {
    return one.code == other.code && one.place == other.place && one.line == other.line;
}

/* Reads a text in pieces of at most `piece` bytes, with its arc lines if these are wanted. */
static dnorm_status text_in(dnorm_handle *graph, dnorm_arc_lines *lines, const uint8_t *text, size_t length,
                            size_t piece) {
    dnorm_inline_readers both;
    dnorm_status status = dnorm_inline_begin(&both, graph, lines);
    for (size_t at = 0; status.code == DNORM_FINE && at < length; at += piece)
        dnorm_inline_both(&both, &status, text + at, length - at < piece ? length - at : piece);
    return status.code == DNORM_FINE ? dnorm_inline_finish(&both, status) : (dnorm_free(&both.reader), status);
}

/* Copies all arcs in a form by rooms of this size, and returns how many there are. */
static size_t arcs_of(const dnorm_handle *graph, uint8_t form, dnorm_arc *out, size_t room) {
    dnorm_place place = DNORM_FIRST;
    size_t count = 0;
    for (dnorm_count some = {room, DNORM_FINE}; some.count == room && count < MOST; count += some.count) {
        some = dnorm_next(graph, form, &place, out + count, room < MOST - count ? room : MOST - count);
        HOLDS(some.code == DNORM_FINE);
        if (room > MOST - count) break;
    }
    return count;
}

/* The arcs ascend by pair, come equal in rooms of any size and as columns; a walk from any place gives some of them. */
static size_t walks(const dnorm_handle *graph, uint8_t form, dnorm_arc *all, size_t room, uint64_t hostile) {
    static dnorm_arc again[MOST];
    static int64_t column[MOST];
    const size_t count = arcs_of(graph, form, all, MOST), other = arcs_of(graph, form, again, room);
    const dnorm_count said = dnorm_arc_count(graph, form);
    const dnorm_arc_columns heads = {NULL, column, NULL, NULL, NULL};
    dnorm_place place = DNORM_FIRST, odd = {(size_t)hostile, hostile >> 7, (int64_t)hostile, -1, INT64_MIN};
    HOLDS(count == other && memcmp(all, again, count * sizeof *all) == 0);
    HOLDS(said.code == DNORM_COUNT_TOO_LARGE || said.count >= count);
    HOLDS(said.count != count || count == MOST || dnorm_columns(graph, form, &place, heads, count).count == count);
    for (size_t i = 1; i < count; i++)
        HOLDS(all[i - 1].tail < all[i].tail || (all[i - 1].tail == all[i].tail && all[i - 1].head <= all[i].head));
    for (size_t i = 0; said.count == count && i < count && count < MOST; i++) HOLDS(column[i] == all[i].head);
    const dnorm_count from = dnorm_next(graph, form, &odd, again, 4);
    for (size_t i = 0, j = 0; i < from.count; i++, j++) {
        while (j < count && memcmp(again + i, all + j, sizeof *all) != 0) j++;
        HOLDS(j < count || count == MOST);
    }
    return count;
}

/* What a line carries, as a line of `min`. */
static dnorm_row carried(uint8_t kind, dnorm_row it) {
    if (kind != DNORM_MIN) it.b = kind == DNORM_SP ? INT64_MAX : it.a, it.c = kind == DNORM_SP ? it.a : 0, it.a = 0;
    return it;
}

/* Each line has units within its bounds, the lines of a pair have those of its arcs, and of two of them the cheaper
   one, or the first of equal ones, is full, or the other has its lower bound. */
static void shared(uint8_t kind, const dnorm_arc *arcs, const int64_t *flow, size_t count, const dnorm_row *rows,
                   const int64_t *units, size_t lines) {
    uint64_t all = 0;
    for (size_t i = 0; i < count; i++) all += (uint64_t)flow[i];
    for (size_t i = 0; i < lines; i++) {
        const dnorm_row one = carried(kind, rows[i]);
        uint64_t left = 0;
        HOLDS(one.a <= units[i] && units[i] <= one.b);
        for (size_t j = 0; j < lines; j++) {
            const dnorm_row it = carried(kind, rows[j]);
            if (one.tail != it.tail || one.head != it.head) continue;
            HOLDS(one.c > it.c || (one.c == it.c && i >= j) || units[i] == one.b || units[j] == it.a);
            left += (uint64_t)units[j];
        }
        for (size_t j = 0; j < count; j++)
            if (one.tail == arcs[j].tail && one.head == arcs[j].head) left -= (uint64_t)flow[j];
        HOLDS(left == 0);
        all -= (uint64_t)units[i];
    }
    HOLDS(all == 0);
}

/* A flow on the arcs is put back on the lines, but not with a wrong count. A line that is changed at one place may be
   that of another text. */
static void spreads(const dnorm_handle *graph, uint8_t form, const dnorm_arc *arcs, size_t count,
                    const dnorm_arc_lines *lines, uint64_t random) {
    static int64_t flow[MOST], units[MOST];
    static dnorm_row rows[MOST];
    static dnorm_share shares[MOST];
    const uint8_t kind = dnorm_facts(graph).kind;
    const size_t length = lines->count, pairs = dnorm_facts(graph).pairs;
    dnorm_row *const it = rows + random % (length + 1);
    int64_t *const numbers[] = {&it->tail, &it->head, &it->a, &it->b, &it->c};
#define CODE(f, l, s, u) dnorm_spread(graph, form, flow, f, rows, l, shares, s, units, u).code
    for (size_t i = 0; i < length; i++) rows[i] = lines->rows[i];
    for (size_t i = 0; i < count; i++, random = random * 6364136223846793005 + 1442695040888963407) {
        const int64_t low = kind == DNORM_MIN ? arcs[i].a : 0, cap = kind == DNORM_MIN ? arcs[i].b : arcs[i].a;
        flow[i] = low + (int64_t)((random >> 1) % (kind == DNORM_SP ? 1000 : (uint64_t)(cap - low) + 1));
    }
    HOLDS(dnorm_spread(graph, form, flow, count, lines, units).code == DNORM_FINE);
    shared(kind, arcs, flow, count, rows, units, length);
    HOLDS(CODE(count + 1, length, pairs, length) == DNORM_NOT_A_FLOW);
    HOLDS(count == 0 || CODE(count - 1, length, pairs, length) == DNORM_NOT_A_FLOW);
    HOLDS(CODE(count, length + 1, pairs, length + 1) == DNORM_NOT_A_FLOW);
    HOLDS(pairs == 0 || CODE(count, length, pairs - 1, length) == DNORM_WRONG_CALL);
    HOLDS(CODE(count, length, pairs, length + 1) == DNORM_WRONG_CALL);
    *numbers[random % 5] ^= 1 + (int64_t)(random >> 33) % 4;
    if (CODE(count, length, pairs, length) == DNORM_FINE) shared(kind, arcs, flow, count, rows, units, length);
}

/* What an instance is worth: its canonical text is read as the same problem, and is its own canonical text. */
static void canonical(const dnorm_handle *graph, uint8_t form) {
    static uint8_t text[1 << 20], again[1 << 20];
    dnorm_handle made = DNORM_NONE, read = DNORM_NONE, twice = DNORM_NONE;
    if (dnorm_canon(graph, form, &made).code != DNORM_FINE) return;
    const dnorm_count length = dnorm_text(&made, 0, text, sizeof text);
    if (length.count < sizeof text) {
        HOLDS(text_in(&read, NULL, text, length.count, sizeof text).code == DNORM_FINE);
        HOLDS(dnorm_compare(graph, &read).what == DNORM_SAME && dnorm_compare(&read, graph).what == DNORM_SAME);
        HOLDS(dnorm_canon(&read, form, &twice).code == DNORM_FINE);
        HOLDS(dnorm_text(&twice, 0, again, sizeof again).count == length.count);
        HOLDS(memcmp(text, again, length.count) == 0);
        HOLDS(dnorm_text(&twice, length.count, again, 1).count == 0);
    }
    dnorm_free(&made);
    dnorm_free(&read);
    dnorm_free(&twice);
}

/* Calls that a handle is not for say so, and change nothing. */
static void wrong_calls(dnorm_handle *graph) {
    dnorm_handle none = DNORM_NONE;
    dnorm_place place = DNORM_FIRST;
    uint8_t byte = 7;
    HOLDS(dnorm_begin(graph).code == DNORM_WRONG_CALL && dnorm_feed(graph, &byte, 1).code == DNORM_WRONG_CALL);
    HOLDS(dnorm_finish(graph).code == DNORM_WRONG_CALL && dnorm_text(graph, 0, &byte, 1).code == DNORM_WRONG_CALL);
    HOLDS(dnorm_items(&none, &place, NULL, 0).code == DNORM_WRONG_CALL && dnorm_facts(&none).kind == DNORM_NO_KIND);
    HOLDS(dnorm_compare(graph, &none).what == DNORM_NOT_BOTH && byte == 7);
}

static void accepted(dnorm_handle *graph, const dnorm_arc_lines *lines, size_t room, uint64_t hostile) {
    static dnorm_arc arcs[MOST];
    wrong_calls(graph);
    for (uint8_t form = 1; form <= 2; form++) {
        const bool is_graph = dnorm_facts(graph).kind < DNORM_SS;
        const size_t count = is_graph ? walks(graph, form, arcs, room, hostile) : 0;
        if (is_graph && count < MOST && lines->count < MOST) spreads(graph, form, arcs, count, lines, hostile);
        canonical(graph, form);
    }
    if (dnorm_facts(graph).kind < DNORM_SS && dnorm_facts(graph).nodes < 1000) {
        dnorm_star star = DNORM_NO_STAR;
        if (dnorm_star_make(graph, 1, &star).code == DNORM_FINE) {
            HOLDS(dnorm_star_reverse(&star).code == DNORM_FINE);
            HOLDS(star.first[star.nodes] == star.arcs && star.into_first[star.nodes] == star.arcs);
        }
        dnorm_star_free(&star);
    }
}

int LLVMFuzzerTestOneInput(const uint8_t *data, size_t length) {
    uint64_t head = 0;
    if (length < 8) return 0;
    memcpy(&head, data, sizeof head);
    const size_t piece = head % 97 + 1, room = head / 97 % 33 + 1;
    dnorm_handle whole = DNORM_NONE, pieces = DNORM_NONE, failing = DNORM_NONE;
    dnorm_arc_lines lines = DNORM_NO_LINES;
    const uint8_t *const text = data + 8;
    const dnorm_status one = text_in(&whole, NULL, text, length - 8, length), other =
        text_in(&pieces, &lines, text, length - 8, piece);
    HOLDS(same(one, other));
    if (one.code == DNORM_FINE) {
        HOLDS(dnorm_compare(&whole, &pieces).what == DNORM_SAME);
        accepted(&pieces, &lines, room, head);
    }
    left = (long)(head >> 40) % 24;
    const dnorm_status failed = text_in(&failing, NULL, text, length - 8, piece);
    left = -1;
    HOLDS(failed.code == DNORM_MEMORY || same(failed, one));
    dnorm_free(&whole);
    dnorm_free(&pieces);
    dnorm_free(&failing);
    dnorm_arc_lines_free(&lines);
    return 0;
}
