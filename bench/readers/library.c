// Reads a text from standard input by the library for C, and copies its canonical arcs into columns. Prints how many
// arcs were read.
//
//     library [ROOM]
//
// Copies so many arcs at a time, as rows by dnorm_next, in place of all at once by columns.
#include <dnorm.h>
#include <dnorm_tools.h>

// Copies all arcs at once. Returns a sum of their numbers.
static uint64_t sum_columns(const dnorm *graph, size_t count) {
    int64_t *columns[5];
    uint64_t sum = 0;
    dnorm_place place = DNORM_FIRST;
    const size_t further = dnorm_facts(graph).kind == DNORM_MIN ? count : 0;
    for (int i = 0; i < 5; i++) {
        columns[i] = malloc(((i < 3 ? count : further) + 1) * sizeof(int64_t));
        if (!columns[i]) exit(4);
    }
    const dnorm_arc_columns all = {columns[0], columns[1], columns[2], further ? columns[3] : NULL,
                                   further ? columns[4] : NULL};
    if (dnorm_columns(graph, 1, &place, all, count).count != count) exit(1);
    for (size_t at = 0; at < count; at++) sum += (uint64_t)(columns[1][at] + columns[2][at]);
    for (size_t at = 0; at < further; at++) sum += (uint64_t)(columns[3][at] + columns[4][at]);
    for (int i = 0; i < 5; i++) free(columns[i]);
    return sum;
}

// Copies the arcs in rooms of this size. Returns a sum of their numbers.
static uint64_t sum_rooms(const dnorm *graph, size_t room) {
    dnorm_arc *arcs = malloc(room * sizeof *arcs);
    uint64_t sum = 0;
    dnorm_place place = DNORM_FIRST;
    size_t count = room;
    if (!arcs) exit(4);
    while (count == room) {
        count = dnorm_next(graph, 1, &place, arcs, room).count;
        for (size_t at = 0; at < count; at++) sum += (uint64_t)(arcs[at].head + arcs[at].a + arcs[at].b + arcs[at].c);
    }
    free(arcs);
    return sum;
}

int main(int count, char **words) {
    dnorm graph = DNORM_NONE;
    const dnorm_status status = dnorm_read_fd(&graph, 0);
    const size_t arcs = dnorm_arc_count(&graph, 1).count, room = count > 1 ? (size_t)atoll(words[1]) : 0;
    const uint64_t sum = room ? sum_rooms(&graph, room) : sum_columns(&graph, arcs);
    printf("%" PRId64 "\n", dnorm_facts(&graph).lines);
    fprintf(stderr, "%zu canonical arcs, sum %" PRIu64 "\n", arcs, sum);
    dnorm_free(&graph);
    return status.code;
}
