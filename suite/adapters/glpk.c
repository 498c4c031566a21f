/* Writes the `min` or `max` problem that GLPK reads from standard input.
 *
 *     cc -o glpk glpk.c -lglpk
 *
 * GLPK reads files by name, so the text is copied to a file first. Its numbers are doubles. */
#include <glpk.h>
#include <stdio.h>
#include <stdlib.h>
#include <string.h>

typedef struct {
    double low, cap, cost;
} arc_data;

static glp_graph *graph;

/* Whether the first line that begins with `p` names this kind. */
static int is_kind(const char *text, const char *kind) {
    char word[8];
    for (const char *at = text; at; at = strchr(at, '\n'), at += at != 0) {
        if (sscanf(at, " p%*1[ \t\r]%7s", word) == 1) {
            return !strcmp(word, kind);
        }
    }
    return 0;
}

static void write_arcs(int is_min) {
    for (int i = 1; i <= graph->nv; i++) {
        for (glp_arc *it = graph->v[i]->out; it; it = it->t_next) {
            arc_data *data = it->data;
            printf("a %d %d", i, it->head->i);
            if (is_min) {
                printf(" %.17g %.17g %.17g\n", data->low, data->cap, data->cost);
            } else {
                printf(" %.17g\n", data->cap);
            }
        }
    }
}

int main(void) {
    static char text[1 << 20];
    char name[] = "/tmp/glpk-XXXXXX";
    int file = mkstemp(name), source = 0, sink = 0, status;
    size_t size = fread(text, 1, sizeof text - 1, stdin);
    FILE *copy = fdopen(file, "wb");
    fwrite(text, 1, size, copy);
    fclose(copy);
    glp_term_out(GLP_OFF);
    graph = glp_create_graph(sizeof(double), sizeof(arc_data));
    int is_min = is_kind(text, "min");
    if (is_min) {
        status = glp_read_mincost(graph, 0, 0, sizeof(double), 2 * sizeof(double), name);
    } else {
        status = glp_read_maxflow(graph, &source, &sink, sizeof(double), name);
    }
    remove(name);
    if (status) {
        return 2;
    }
    printf("p %s %d %d\n", is_min ? "min" : "max", graph->nv, graph->na);
    for (int i = 1; is_min && i <= graph->nv; i++) {
        double flow = *(double *)graph->v[i]->data;
        if (flow != 0) {
            printf("n %d %.17g\n", i, flow);
        }
    }
    if (!is_min) {
        printf("n %d s\nn %d t\n", source, sink);
    }
    write_arcs(is_min);
    return 0;
}
