/* Writes the `max` problem that igraph reads from standard input.
 *
 *     cc -o igraph igraph.c -I/usr/include/igraph -ligraph
 *
 * Capacities are doubles. */
#include <igraph.h>
#include <stdio.h>

int main(void) {
    igraph_t graph;
    igraph_strvector_t problem;
    igraph_vector_int_t label;
    igraph_vector_t capacity;
    igraph_integer_t source = -1, sink = -1, tail, head;
    igraph_set_error_handler(igraph_error_handler_ignore);
    igraph_set_warning_handler(igraph_warning_handler_ignore);
    igraph_strvector_init(&problem, 0);
    igraph_vector_int_init(&label, 0);
    igraph_vector_init(&capacity, 0);
    if (igraph_read_graph_dimacs_flow(&graph, stdin, &problem, &label, &source, &sink, &capacity, IGRAPH_DIRECTED)) {
        return 2;
    }
    printf("p max %lld %lld\n", (long long)igraph_vcount(&graph), (long long)igraph_ecount(&graph));
    printf("n %lld s\nn %lld t\n", (long long)source + 1, (long long)sink + 1);
    for (igraph_integer_t i = 0; i < igraph_ecount(&graph); i++) {
        igraph_edge(&graph, i, &tail, &head);
        printf("a %lld %lld %.17g\n", (long long)tail + 1, (long long)head + 1, VECTOR(capacity)[i]);
    }
    return 0;
}
