/* Makes a call of suite/calls.json: CALL FORM TEXT OTHER [UNITS].., where `-` is no text. Prints its answer, or `code`
   and the code of the call or of the text. */
#define _POSIX_C_SOURCE 200809L
#include "dnorm_tools.h"
#include <string.h>

#define ROOM 16
__extension__ typedef __int128 wide;

/* What the call is given. */
static dnorm graph = DNORM_NONE, other = DNORM_NONE;
static dnorm_arc_lines lines = DNORM_NO_LINES;
static uint8_t form;
static int64_t flow[ROOM];
static size_t flow_count;

#define ROW(...) row((const int64_t[]){__VA_ARGS__}, sizeof((const int64_t[]){__VA_ARGS__}) / sizeof(int64_t))
static void row(const int64_t *numbers, size_t count) {
    for (size_t i = 0; i < count; i++) printf(i ? " %" PRId64 : "%" PRId64, numbers[i]);
    putchar('\n');
}

static void sizes(const size_t *numbers, size_t count) {
    for (size_t i = 0; i < count; i++) printf(i ? " %zu" : "%zu", numbers[i]);
    putchar('\n');
}

static void print(wide number) {
    if (number < 0) putchar('-');
    number = number < 0 ? -number : number;
    if (number > 9) print(number / 10);
    putchar('0' + (int)(number % 10));
}

static void value(dnorm_value it) {
    putchar(' ');
    if (it.known) print(it.high * ((wide)1 << 64) + it.low);
    else fputs("none", stdout);
}

static uint8_t facts(void) {
    const dnorm_summary it = dnorm_facts(&graph);
    if (it.kind == DNORM_NO_KIND) return DNORM_WRONG_CALL;
    printf("%s ", dnorm_kind_name(it.kind));
    ROW(it.nodes, it.lines, (int64_t)it.pairs, (int64_t)it.items);
    return DNORM_FINE;
}

static uint8_t arc_count(void) {
    const dnorm_count found = dnorm_arc_count(&graph, form);
    if (found.code == DNORM_FINE) ROW((int64_t)found.count);
    return found.code;
}

static uint8_t next(void) {
    dnorm_arc out[ROOM], *it = out;
    dnorm_place place = DNORM_FIRST;
    const dnorm_count found = dnorm_next(&graph, form, &place, out, ROOM);
    for (; it < out + found.count; it++) ROW(it->tail, it->head, it->a, it->b, it->c);
    return found.code;
}

static uint8_t items(void) {
    dnorm_item out[ROOM], *it = out;
    dnorm_place place = DNORM_FIRST;
    const dnorm_count found = dnorm_items(&graph, &place, out, ROOM);
    for (; it < out + found.count; it++) ROW(it->id, it->a, it->b);
    return found.code;
}

static uint8_t canon(void) {
    uint8_t bytes[1024];
    dnorm text = DNORM_NONE;
    const dnorm_status status = dnorm_canon(&graph, form, &text);
    if (status.code == DNORM_FINE) fwrite(bytes, 1, dnorm_text(&text, 0, bytes, sizeof bytes).count, stdout);
    dnorm_free(&text);
    return status.code;
}

static uint8_t compare(void) {
    const dnorm_difference it = dnorm_compare(&graph, &other);
    if (it.what == DNORM_NOT_BOTH) return DNORM_WRONG_CALL;
    printf("%d %" PRId64 " %" PRId64 " %" PRIu64 " %" PRId64, it.what, it.at, it.to, it.index, it.amount);
    value(it.left);
    value(it.right);
    putchar('\n');
    return DNORM_FINE;
}

static uint8_t fits(void) {
    const dnorm_fit it = dnorm_fits(&graph, &other);
    if (it.code == DNORM_NOT_BOTH) return DNORM_WRONG_CALL;
    ROW(it.code, it.node);
    return DNORM_FINE;
}

static uint8_t arc_lines(void) {
    for (const dnorm_row *it = lines.rows; it < lines.rows + lines.count; it++)
        ROW((int64_t)it->line, it->tail, it->head, it->a, it->b, it->c);
    return DNORM_FINE;
}

static uint8_t spread(void) {
    int64_t units[ROOM];
    const uint8_t code = dnorm_spread_lines(&graph, form, flow, flow_count, &lines, units).code;
    if (code == DNORM_FINE) row(units, lines.count);
    return code;
}

static uint8_t star(void) {
    dnorm_star it = DNORM_NO_STAR;
    uint8_t code = dnorm_star_make(&graph, form, &it).code;
    if (code == DNORM_FINE) code = dnorm_star_reverse(&it).code;
    if (code != DNORM_FINE) return code;
    sizes(it.first, (size_t)it.nodes + 1);
    sizes(it.into_first, (size_t)it.nodes + 1);
    sizes(it.into, it.arcs);
    dnorm_star_free(&it);
    return code;
}

static const struct {
    const char *name;
    uint8_t (*make)(void);
} calls[] = {{"facts", facts}, {"arc_count", arc_count}, {"next", next}, {"items", items}, {"canon", canon},
             {"compare", compare}, {"fits", fits}, {"lines", arc_lines}, {"spread", spread}, {"star", star}};

/* Reads a text, and its arc lines in place of those before. */
static uint8_t take(char *text, dnorm *into) {
    uint8_t code = DNORM_FINE;
    dnorm_arc_lines_free(&lines);
    if (strcmp(text, "-") != 0) {
        FILE *file = fmemopen(text, strlen(text), "r");
        code = dnorm_read_lines_file(into, &lines, file).code;
        fclose(file);
    }
    return code;
}

int main(int argc, char **argv) {
    uint8_t code = take(argv[3], &graph);
    if (code == DNORM_FINE) code = take(argv[4], &other);
    form = (uint8_t)atoi(argv[2]);
    for (int i = 5; i < argc; i++) flow[flow_count++] = strtoll(argv[i], NULL, 10);
    for (size_t i = 0; code == DNORM_FINE && i < sizeof calls / sizeof *calls; i++)
        if (strcmp(argv[1], calls[i].name) == 0) code = calls[i].make();
    if (code != DNORM_FINE) printf("code %d\n", code);
    dnorm_arc_lines_free(&lines);
    dnorm_free(&graph);
    dnorm_free(&other);
    return 0;
}
