// The processor time that LEMON's algorithms take for a DIMACS problem, without reading it: a line for each algorithm.
//
//     g++ -O3 -DNDEBUG -o lemon_alone lemon_alone.cpp
//     lemon_alone PROBLEM [ALGORITHM]          network_simplex, cost_scaling or preflow
//
// A line holds the algorithm, the seconds from the graph in memory to the end of its run, and the value, or
// `infeasible`.

#include <lemon/cost_scaling.h>
#include <lemon/dimacs.h>
#include <lemon/network_simplex.h>
#include <lemon/preflow.h>
#include <lemon/smart_graph.h>

#include <ctime>
#include <fstream>
#include <iostream>
#include <limits>
#include <string>

namespace {

using Value = long long;
using Graph = lemon::SmartDigraph;
using ArcValues = Graph::ArcMap<Value>;
using NodeValues = Graph::NodeMap<Value>;

double seconds() { return static_cast<double>(std::clock()) / CLOCKS_PER_SEC; }

struct CostProblem {
    Graph graph;
    ArcValues low{graph}, cap{graph}, cost{graph};
    NodeValues supply{graph};
};

template <typename Algorithm>
void solve(const std::string& name, const CostProblem& problem) {
    const double start = seconds();
    Algorithm algorithm(problem.graph);
    algorithm.lowerMap(problem.low).upperMap(problem.cap).costMap(problem.cost).supplyMap(problem.supply);
    const bool is_legal = algorithm.run() == Algorithm::OPTIMAL;
    const double took = seconds() - start;
    std::cout << name << ' ' << took << ' ';
    if (is_legal) {
        std::cout << algorithm.template totalCost<Value>() << std::endl;
    } else {
        std::cout << "infeasible" << std::endl;
    }
}

void solve_flow(const Graph& graph, const ArcValues& cap, Graph::Node source, Graph::Node sink) {
    const double start = seconds();
    lemon::Preflow<Graph, ArcValues> algorithm(graph, cap, source, sink);
    algorithm.run();
    std::cout << "preflow " << seconds() - start << ' ' << algorithm.flowValue() << std::endl;
}

}  // namespace

int main(int count, char** words) {
    if (count < 2) {
        std::cerr << "usage: lemon_alone PROBLEM [ALGORITHM]\n";
        return 2;
    }
    const std::string wanted = count > 2 ? words[2] : "";
    std::ifstream input(words[1]);
    // This reads the problem line; the readers below go on behind it.
    const lemon::DimacsDescriptor kind = lemon::dimacsType(input);
    if (kind.type == lemon::DimacsDescriptor::MIN) {
        CostProblem problem;
        lemon::readDimacsMin(input, problem.graph, problem.low, problem.cap, problem.cost, problem.supply,
                             std::numeric_limits<Value>::max(), kind);
        if (wanted.empty() || wanted == "network_simplex") {
            solve<lemon::NetworkSimplex<Graph, Value>>("network_simplex", problem);
        }
        if (wanted.empty() || wanted == "cost_scaling") {
            solve<lemon::CostScaling<Graph, Value>>("cost_scaling", problem);
        }
        return 0;
    }
    if (kind.type == lemon::DimacsDescriptor::MAX) {
        Graph graph;
        ArcValues cap(graph);
        Graph::Node source, sink;
        lemon::readDimacsMax(input, graph, cap, source, sink, std::numeric_limits<Value>::max(), kind);
        solve_flow(graph, cap, source, sink);
        return 0;
    }
    std::cerr << words[1] << ": not a problem of the kind min or max\n";
    return 1;
}
