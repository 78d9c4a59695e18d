// Solves the problem of the file that it is given by LEMON, and prints an answer: its worth, flows and potentials.
#include <lemon/dimacs.h>
#include <lemon/network_simplex.h>
#include <lemon/smart_graph.h>
#include <fstream>
#include <iostream>
using namespace lemon;
int main(int, char **names) {
    std::ifstream file(names[1]);
    SmartDigraph graph;
    SmartDigraph::ArcMap<long long> low(graph), cap(graph), cost(graph);
    SmartDigraph::NodeMap<long long> supply(graph);
    readDimacsMin(file, graph, low, cap, cost, supply);
    NetworkSimplex<SmartDigraph, long long> simplex(graph);
    simplex.lowerMap(low).upperMap(cap).costMap(cost).supplyMap(supply);
    if (simplex.run() != simplex.OPTIMAL) return 1;
    std::cout << "s " << simplex.totalCost() << "\n";
    for (int i = 0; i <= graph.maxArcId(); i++) {
        SmartDigraph::Arc arc = graph.arcFromId(i);
        std::cout << "f " << graph.id(graph.source(arc)) + 1 << " " << graph.id(graph.target(arc)) + 1 << " "
                  << simplex.flow(arc) << "\n";
    }
    for (int i = 0; i <= graph.maxNodeId(); i++)
        std::cout << "v " << i + 1 << " " << simplex.potential(graph.nodeFromId(i)) << "\n";
}
