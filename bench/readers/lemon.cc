// Reads a text from standard input by LEMON, into a graph that cannot be changed and numbers of 64 bits. Prints how many
// arcs were read.
#include <iostream>
#include <lemon/dimacs.h>
#include <lemon/smart_graph.h>

using Graph = lemon::SmartDigraph;

int main() {
    std::ios::sync_with_stdio(false);
    Graph graph;
    Graph::ArcMap<long long> low(graph), cap(graph), cost(graph);
    Graph::NodeMap<long long> supply(graph);
    Graph::Node source, sink;
    auto found = lemon::dimacsType(std::cin);
    if (found.type == lemon::DimacsDescriptor::MIN)
        lemon::readDimacsMin(std::cin, graph, low, cap, cost, supply, 0, found);
    else if (found.type == lemon::DimacsDescriptor::MAX)
        lemon::readDimacsMax(std::cin, graph, cap, source, sink, 0, found);
    else
        lemon::readDimacsSp(std::cin, graph, cap, source, found);
    std::cout << lemon::countArcs(graph) << '\n';
}
