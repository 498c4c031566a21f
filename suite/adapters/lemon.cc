// Writes the `min`, `max` or `sp` problem that LEMON reads from standard input.
//
//     c++ -o lemon lemon.cc
//
// Numbers have 64 bits.
#include <iostream>
#include <lemon/dimacs.h>
#include <lemon/list_graph.h>

using namespace lemon;
using Arcs = ListDigraph::ArcMap<long long>;

int main() {
    ListDigraph graph;
    Arcs low(graph), cap(graph), cost(graph);
    ListDigraph::NodeMap<long long> supply(graph);
    ListDigraph::Node source = INVALID, sink = INVALID;
    std::ostream &out = std::cout;
    try {
        DimacsDescriptor found = dimacsType(std::cin);
        bool is_min = found.type == DimacsDescriptor::MIN, is_max = found.type == DimacsDescriptor::MAX;
        if (is_min) readDimacsMin(std::cin, graph, low, cap, cost, supply, 0, found);
        else if (is_max) readDimacsMax(std::cin, graph, cap, source, sink, 0, found);
        else if (found.type == DimacsDescriptor::SP) readDimacsSp(std::cin, graph, cap, source, found);
        else return 2;
        out << "p " << (is_min ? "min " : is_max ? "max " : "sp ") << countNodes(graph) << ' ' << countArcs(graph) << '\n';
        for (ListDigraph::NodeIt it(graph); it != INVALID; ++it)
            if (is_min && supply[it]) out << "n " << graph.id(it) + 1 << ' ' << supply[it] << '\n';
        if (is_max && source != INVALID) out << "n " << graph.id(source) + 1 << " s\n";
        if (is_max && sink != INVALID) out << "n " << graph.id(sink) + 1 << " t\n";
        for (ListDigraph::ArcIt it(graph); it != INVALID; ++it) {
            out << "a " << graph.id(graph.source(it)) + 1 << ' ' << graph.id(graph.target(it)) + 1 << ' ';
            if (is_min) out << low[it] << ' ' << cap[it] << ' ' << cost[it] << '\n';
            else out << cap[it] << '\n';
        }
    } catch (const Exception &) {
        return 2;
    }
}
