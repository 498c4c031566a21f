// Prints the least cost of a `min` text and the flow on each of its arc lines, by the network simplex of LEMON, whose
// graph is made of columns. LEMON's sums of costs have 64 bits and are not checked.
//
//     least_cost FILE
#include <climits>
#include <cstdint>
#include <dnorm.hpp>
#include <iostream>
#include <lemon/network_simplex.h>
#include <lemon/static_graph.h>
#include <utility>
#include <vector>

using Graph = lemon::StaticDigraph;
using Numbers = Graph::ArcMap<std::int64_t>;

// Fills a map over arcs, which are numbered in the order of the columns.
static void fill(const Graph &graph, Numbers &numbers, const std::vector<std::int64_t> &column) {
    for (std::size_t i = 0; i < column.size(); i++) numbers[graph.arc(static_cast<int>(i))] = column[i];
}

static int solve(const dnorm_cpp::Instance &flow) {
    // Form 2 has one arc for each cost of a pair, so the solver gets few arcs.
    const dnorm_cpp::Columns columns = flow.columns(2);
    std::vector<std::pair<int, int>> ends;
    ends.reserve(columns.tails.size());
    for (std::size_t i = 0; i < columns.tails.size(); i++)
        ends.emplace_back(static_cast<int>(columns.tails[i] - 1), static_cast<int>(columns.heads[i] - 1));
    Graph graph;
    graph.build(static_cast<int>(flow.facts().nodes), ends.begin(), ends.end());
    Numbers low(graph), cap(graph), cost(graph);
    fill(graph, low, columns.a);
    fill(graph, cap, columns.b);
    fill(graph, cost, columns.c);
    Graph::NodeMap<std::int64_t> supply(graph, 0);
    // LEMON would also solve a problem whose demands exceed its supplies, which no flow can meet.
    std::uint64_t balance = 0;
    for (const dnorm_item &it : flow.items()) {
        supply[graph.node(static_cast<int>(it.id - 1))] = it.a;
        balance += static_cast<std::uint64_t>(it.a);
    }
    lemon::NetworkSimplex<Graph, std::int64_t> simplex(graph);
    simplex.lowerMap(low).upperMap(cap).costMap(cost).supplyMap(supply);
    // LEMON has no flow on a graph without nodes, and takes a capacity of 2^63-1 for none.
    const auto end = flow.facts().nodes == 0 ? simplex.OPTIMAL : simplex.run();
    if (balance != 0 || end == simplex.INFEASIBLE) {
        std::cout << "no flow\n";
        return 1;
    }
    if (end != simplex.OPTIMAL) {
        std::cerr << "a cycle of negative cost has a capacity of 2^63-1, which is too much for LEMON\n";
        return 2;
    }
    std::vector<std::int64_t> units;
    for (std::size_t i = 0; i < ends.size(); i++) units.push_back(simplex.flow(graph.arc(static_cast<int>(i))));
    std::cout << "s " << simplex.totalCost() << '\n';
    dnorm_cpp::write_flow(std::cout, flow.lines(), flow.spread(units, 2));
    return 0;
}

int main(int count, char **words) try {
    const dnorm_cpp::Instance flow{dnorm_cpp::Path(count == 2 ? words[1] : ""), dnorm_cpp::with_lines};
    const dnorm_summary facts = flow.facts();
    if (facts.kind != DNORM_MIN || facts.nodes > INT_MAX || flow.arc_count(2) > INT_MAX) {
        std::cerr << "no min text, or too many nodes or arcs for LEMON\n";
        return 2;
    }
    return solve(flow);
} catch (const std::ios_base::failure &) {
    std::cerr << "standard output failed\n";
    return 4;
} catch (const std::runtime_error &why) {
    // A text that is refused, or a file that cannot be read.
    std::cerr << why.what() << '\n';
    return 2;
}
