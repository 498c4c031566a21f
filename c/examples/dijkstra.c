/* Prints a shortest path between two nodes of an `sp` text, with the coordinates of its nodes from a `co` text, by the
   algorithm of Dijkstra.

       dijkstra GRAPH COORDINATES FROM TO */
#include <dnorm.h>
#include <dnorm_tools.h>

typedef struct entry {
    int64_t distance, node;
} entry;

/* A binary heap, whose first entry has the least distance. */
typedef struct heap {
    entry *entries;
    size_t count;
} heap;

static void push(heap *queue, int64_t distance, int64_t node) {
    entry *entries = queue->entries;
    size_t at = queue->count++;
    for (; at > 0 && entries[(at - 1) / 2].distance > distance; at = (at - 1) / 2) entries[at] = entries[(at - 1) / 2];
    entries[at].distance = distance;
    entries[at].node = node;
}

static entry pop(heap *queue) {
    entry *entries = queue->entries;
    const entry least = entries[0], last = entries[--queue->count];
    size_t at = 0;
    for (size_t child = 1; child < queue->count; child = 2 * at + 1) {
        if (child + 1 < queue->count && entries[child + 1].distance < entries[child].distance) child++;
        if (entries[child].distance >= last.distance) break;
        entries[at] = entries[child];
        at = child;
    }
    entries[at] = last;
    return least;
}

/* Finds the distance of each node from one of them, and the node before it on a shortest path. The queue has room for
   one entry more than there are arcs, which are not below 0. */
static void search(const dnorm_star *roads, int64_t from, heap *queue, int64_t *distance, int64_t *before) {
    for (int64_t v = 1; v <= roads->nodes; v++) distance[v] = INT64_MAX;
    distance[from] = 0;
    push(queue, 0, from);
    while (queue->count > 0) {
        const entry near = pop(queue);
        if (near.distance > distance[near.node]) continue;
        for (size_t i = roads->first[near.node - 1]; i < roads->first[near.node]; i++) {
            const int64_t head = roads->heads[i];
            if (roads->a[i] >= distance[head] - near.distance) continue;
            distance[head] = near.distance + roads->a[i];
            before[head] = near.node;
            push(queue, distance[head], head);
        }
    }
}

static int by_id(const void *left, const void *right) {
    const dnorm_item *one = left, *other = right;
    return (one->id > other->id) - (one->id < other->id);
}

/* Prints the nodes of a path from its last one back, with their coordinates: points are sorted by their IDs. */
static void print_path(const int64_t *distance, const int64_t *before, const dnorm_item *points, size_t count,
                       int64_t to) {
    if (distance[to] == INT64_MAX) puts("no path");
    for (int64_t v = distance[to] == INT64_MAX ? 0 : to; v != 0; v = before[v]) {
        const dnorm_item wanted = {v, 0, 0};
        const dnorm_item *point = bsearch(&wanted, points, count, sizeof *points, by_id);
        printf("node %" PRId64 ", distance %" PRId64, v, distance[v]);
        if (point) printf(", at %" PRId64 " %" PRId64, point->a, point->b);
        puts("");
    }
}

/* Whether the nodes are in the graph, and no length is below 0. */
static bool can_solve(const dnorm_star *roads, int64_t from, int64_t to) {
    for (size_t i = 0; i < roads->arcs; i++)
        if (roads->a[i] < 0) return false;
    return from >= 1 && from <= roads->nodes && to >= 1 && to <= roads->nodes;
}

static int solve(const dnorm_star *roads, const dnorm *points, int64_t from, int64_t to) {
    const size_t nodes = (size_t)roads->nodes + 1, count = (size_t)dnorm_facts(points).items;
    heap queue = {calloc(roads->arcs + 1, sizeof(entry)), 0};
    int64_t *distance = calloc(nodes, sizeof *distance), *before = calloc(nodes, sizeof *before);
    dnorm_item *items = calloc(count + 1, sizeof *items);
    dnorm_place place = DNORM_FIRST;
    const bool has_room = queue.entries && distance && before && items;
    if (has_room) {
        dnorm_items(points, &place, items, count);
        search(roads, from, &queue, distance, before);
        print_path(distance, before, items, count, to);
    }
    free(queue.entries), free(distance), free(before), free(items);
    if (!has_room) fputs("out of memory\n", stderr);
    return has_room ? 0 : 1;
}

/* Reads a text, or says why there is none. */
static bool has_read(dnorm *instance, const char *path) {
    char line[256];
    const dnorm_status status = dnorm_read_path(instance, path);
    if (status.code == DNORM_FINE) return true;
    if (status.code == DNORM_READ) perror(path);
    else if (dnorm_status_line(status, line, sizeof line) > 0) fprintf(stderr, "%s: %s\n", path, line);
    return false;
}

int main(int count, char **words) {
    dnorm graph = DNORM_NONE, points = DNORM_NONE;
    dnorm_star roads = DNORM_NO_STAR;
    int end = 2;
    if (count != 5) return fputs("usage: dijkstra GRAPH COORDINATES FROM TO\n", stderr), 3;
    if (has_read(&graph, words[1]) && has_read(&points, words[2])) {
        const int64_t from = atoll(words[3]), to = atoll(words[4]);
        const dnorm_fit fit = dnorm_fits(&graph, &points);
        if (fit.code != DNORM_FITS || dnorm_facts(&points).kind != DNORM_CO)
            fprintf(stderr, "%s: no coordinates of %s\n", words[2], words[1]);
        else if (dnorm_star_make(&graph, 1, &roads).code != DNORM_FINE) fputs("out of memory\n", stderr);
        else if (!can_solve(&roads, from, to)) fputs("a length is below 0, or a node is not in the graph\n", stderr);
        else end = solve(&roads, &points, from, to);
    }
    if (fflush(stdout) || ferror(stdout)) {
        perror("standard output");
        end = 4;
    }
    dnorm_star_free(&roads);
    dnorm_free(&points);
    dnorm_free(&graph);
    return end;
}
