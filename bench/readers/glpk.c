// Reads a `min` or `max` text from standard input by GLPK, whose numbers are doubles. Prints how many arcs were read.
#include <glpk.h>
#include <stdio.h>
#include <string.h>

typedef struct {
    double low, cap, cost;
} arc_data;

// Usage: glpk KIND
int main(int count, char **words) {
    int source, sink, is_min = count > 1 && !strcmp(words[1], "min");
    glp_term_out(GLP_OFF);
    glp_graph *graph = glp_create_graph(sizeof(double), sizeof(arc_data));
    int status = is_min ? glp_read_mincost(graph, 0, 0, sizeof(double), 2 * sizeof(double), "/dev/stdin")
                        : glp_read_maxflow(graph, &source, &sink, sizeof(double), "/dev/stdin");
    printf("%d\n", graph->na);
    glp_delete_graph(graph);
    return status;
}
