// Writes the `max` problem that Boost reads from standard input.
//
//     c++ -o boost boost.cc
//
// Capacities have 64 bits. Boost adds a reverse arc of capacity 0 for each arc, which means nothing.
#include <boost/graph/adjacency_list.hpp>
#include <boost/graph/read_dimacs.hpp>
#include <iostream>

using namespace boost;
using Traits = adjacency_list_traits<vecS, vecS, directedS>;
using Graph = adjacency_list<vecS, vecS, directedS, no_property,
                             property<edge_capacity_t, long, property<edge_reverse_t, Traits::edge_descriptor>>>;

int main() {
    Graph graph;
    auto cap = get(edge_capacity, graph);
    Traits::vertex_descriptor source = 0, sink = 0;
    if (read_dimacs_max_flow(graph, cap, get(edge_reverse, graph), source, sink, std::cin)) return 2;
    std::cout << "p max " << num_vertices(graph) << ' ' << num_edges(graph) << '\n';
    std::cout << "n " << source + 1 << " s\nn " << sink + 1 << " t\n";
    for (auto all = edges(graph); all.first != all.second; ++all.first) {
        auto it = *all.first;
        std::cout << "a " << boost::source(it, graph) + 1 << ' ' << target(it, graph) + 1 << ' ' << cap[it] << '\n';
    }
}
