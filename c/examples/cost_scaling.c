/* Prints the least cost of a `min` text, and the flow on each of its arc lines, by cost scaling: flow is pushed over
   residual arcs whose reduced costs are negative, and prices fall where none is. Costs are scaled by NODES + 1, so that
   arcs which are optimal up to 1 are optimal. Sums of flows and of costs must fit 64 bits, which is not checked.

       cost_scaling FILE */
#include <dnorm.h>
#include <dnorm_tools.h>

/* By how much less an arc may be optimal in each next scale. */
#define FACTOR 8

typedef struct network {
    dnorm_star arcs;
    /* The flow of each arc; the price, the excess and the next residual arc of each node, which count from 1. */
    int64_t *flow, *price, *excess;
    size_t *next;
    /* The nodes that have excess, in the order in which they got it, and how many these are. */
    int64_t *queue;
    size_t first, count;
} network;

/* A residual arc: how much it can take, where it leads, its reduced cost, and the arc of the network that it is along or
   against. */
typedef struct residual {
    int64_t room, head, cost;
    size_t arc;
    int sign;
} residual;

static size_t degree(const dnorm_star *arcs, int64_t v) {
    return arcs->first[v] - arcs->first[v - 1] + arcs->into_first[v] - arcs->into_first[v - 1];
}

/* Returns the residual arc `i` of a node: first those along its arcs, then those against the arcs into it. */
static residual residual_of(const network *net, int64_t v, size_t i) {
    const dnorm_star *arcs = &net->arcs;
    const size_t out = arcs->first[v] - arcs->first[v - 1];
    residual it;
    it.sign = i < out ? 1 : -1;
    it.arc = i < out ? arcs->first[v - 1] + i : arcs->into[arcs->into_first[v - 1] + i - out];
    it.head = i < out ? arcs->heads[it.arc] : arcs->tails[it.arc];
    it.room = i < out ? arcs->b[it.arc] - net->flow[it.arc] : net->flow[it.arc] - arcs->a[it.arc];
    it.cost = it.sign * arcs->c[it.arc] + net->price[v] - net->price[it.head];
    return it;
}

static void push(network *net, int64_t v, residual over, int64_t units) {
    const bool had_none = net->excess[over.head] <= 0;
    net->flow[over.arc] += over.sign * units;
    net->excess[v] -= units;
    net->excess[over.head] += units;
    if (had_none && net->excess[over.head] > 0 && over.head != v)
        net->queue[(net->first + net->count++) % (size_t)net->arcs.nodes] = over.head;
}

/* Sends the excess of a node on. Returns whether it can go anywhere: a price that falls below `least` never ends. */
static bool discharge(network *net, int64_t v, int64_t epsilon, int64_t least) {
    const size_t all = degree(&net->arcs, v);
    while (net->excess[v] > 0) {
        int64_t best = INT64_MAX;
        for (; net->excess[v] > 0 && net->next[v] < all; net->next[v]++) {
            const residual it = residual_of(net, v, net->next[v]);
            if (it.room > 0 && it.cost < 0) push(net, v, it, it.room < net->excess[v] ? it.room : net->excess[v]);
            if (net->excess[v] == 0) return true;
        }
        for (size_t i = 0; i < all; i++) {
            const residual it = residual_of(net, v, i);
            if (it.room > 0 && it.head != v && it.cost < best) best = it.cost;
        }
        if (best == INT64_MAX || net->price[v] - best - epsilon < least) return false;
        net->price[v] -= best + epsilon;
        net->next[v] = 0;
    }
    return true;
}

/* Makes the flow optimal up to `epsilon`. Returns whether there is a flow. */
static bool refine(network *net, int64_t epsilon) {
    const dnorm_star *arcs = &net->arcs;
    int64_t lowest = 0;
    net->first = net->count = 0;
    for (int64_t v = 1; v <= arcs->nodes; v++) {
        net->next[v] = 0;
        if (net->price[v] < lowest) lowest = net->price[v];
        for (size_t i = arcs->first[v - 1]; i < arcs->first[v]; i++) {
            const int64_t cost = arcs->c[i] + net->price[v] - net->price[arcs->heads[i]];
            const int64_t wanted = cost < 0 ? arcs->b[i] : arcs->a[i];
            net->excess[v] -= wanted - net->flow[i];
            net->excess[arcs->heads[i]] += wanted - net->flow[i];
            net->flow[i] = wanted;
        }
    }
    for (int64_t v = 1; v <= arcs->nodes; v++)
        if (net->excess[v] > 0) net->queue[net->count++] = v;
    /* In one scale no price falls by more than this, if there is a flow. */
    lowest -= 2 * (FACTOR + 1) * (arcs->nodes + 1) * epsilon;
    while (net->count > 0) {
        const int64_t v = net->queue[net->first];
        net->first = (net->first + 1) % (size_t)arcs->nodes;
        net->count--;
        if (!discharge(net, v, epsilon, lowest)) return false;
    }
    for (int64_t v = 1; v <= arcs->nodes; v++)
        if (net->excess[v] < 0) return false;
    return true;
}

/* Solves the problem. Returns null, or why not. */
static const char *solve(const dnorm *graph, network *net) {
    const int64_t nodes = net->arcs.nodes, scale = nodes + 1;
    int64_t epsilon = 1;
    dnorm_item some[256];
    dnorm_place place = DNORM_FIRST;
    size_t count;
    for (size_t i = 0; i < net->arcs.arcs; i++) {
        const int64_t cost = net->arcs.c[i] < 0 ? -net->arcs.c[i] : net->arcs.c[i];
        if (cost < 0 || cost > INT64_MAX / 64 / scale / scale) return "the costs are too large";
        net->arcs.c[i] *= scale;
        if (cost * scale > epsilon) epsilon = cost * scale;
    }
    do {
        count = dnorm_items(graph, &place, some, 256).count;
        for (size_t i = 0; i < count; i++) net->excess[some[i].id] = some[i].a;
    } while (count == 256);
    while (epsilon > 1) {
        epsilon = epsilon / FACTOR > 1 ? epsilon / FACTOR : 1;
        if (!refine(net, epsilon)) return "there is no flow";
    }
    return refine(net, 1) ? NULL : "there is no flow";
}

static bool allocate(network *net) {
    const size_t nodes = (size_t)net->arcs.nodes + 1, arcs = net->arcs.arcs + 1;
    net->flow = calloc(arcs, sizeof(int64_t));
    net->price = calloc(nodes, sizeof(int64_t));
    net->excess = calloc(nodes, sizeof(int64_t));
    net->next = calloc(nodes, sizeof(size_t));
    net->queue = calloc(nodes, sizeof(int64_t));
    return net->flow && net->price && net->excess && net->next && net->queue;
}

/* Puts the flow back on the arc lines, and prints it. Returns the code of the call. */
static uint8_t answer(const dnorm *graph, const network *net, const dnorm_arc_lines *lines) {
    int64_t *units = calloc(lines->count + 1, sizeof(int64_t)), cost = 0;
    uint8_t code = DNORM_MEMORY;
    if (units) code = dnorm_spread(graph, 2, net->flow, net->arcs.arcs, lines, units).code;
    for (size_t i = 0; code == DNORM_FINE && i < lines->count; i++) cost += units[i] * lines->rows[i].c;
    if (code == DNORM_FINE && (printf("s %" PRId64 "\n", cost) < 0 || !dnorm_write_flow(stdout, lines, units)))
        code = DNORM_READ;
    free(units);
    return code;
}

/* Solves the problem of a graph, and prints the flow. Returns the exit status. */
static int print_flow(const dnorm *graph, const dnorm_arc_lines *lines) {
    network net = {DNORM_NO_STAR, NULL, NULL, NULL, NULL, NULL, 0, 0};
    const char *why = "there is too little memory";
    uint8_t code = DNORM_FINE;
    /* In form 2 there is one arc for each cost of a pair. */
    if (dnorm_star_make(graph, 2, &net.arcs).code == DNORM_FINE &&
        dnorm_star_reverse(&net.arcs).code == DNORM_FINE && allocate(&net))
        why = solve(graph, &net);
    if (!why) code = answer(graph, &net, lines);
    if (why) puts(why);
    else if (code != DNORM_FINE) fputs("standard output failed, or there is too little memory\n", stderr);
    free(net.flow);
    free(net.price);
    free(net.excess);
    free(net.next);
    free(net.queue);
    dnorm_star_free(&net.arcs);
    return why ? 1 : code == DNORM_FINE ? 0 : 4;
}

int main(int count, char **words) {
    dnorm graph = DNORM_NONE;
    dnorm_arc_lines lines = DNORM_NO_LINES;
    const dnorm_status status = dnorm_read_lines_path(&graph, &lines, count == 2 ? words[1] : "");
    char line[256];
    int end = 2;
    if (status.code == DNORM_FINE && dnorm_facts(&graph).kind == DNORM_MIN) end = print_flow(&graph, &lines);
    else if (dnorm_status_line(status, line, sizeof line) > 0) puts(status.code ? line : "this is no min text");
    dnorm_arc_lines_free(&lines);
    dnorm_free(&graph);
    return end;
}
