// The queries of made.h, answered by Boost Graph: its Dijkstra without a colour map, over compressed rows.
#include "arrivals.hpp"
#include <boost/graph/compressed_sparse_row_graph.hpp>
#include <boost/graph/dijkstra_shortest_paths_no_color_map.hpp>
#include <functional>
#include <limits>

using namespace boost;
typedef uint32_t Vertex;

template <class Kind> struct Router {
  typedef typename Kind::Value Value;
  typedef compressed_sparse_row_graph<directedS, no_property, Value, no_property, Vertex, uint32_t> Graph;
  static constexpr Value END = std::numeric_limits<Value>::max();
  inline static Graph graph;
  inline static std::vector<Value> costs;
  inline static std::vector<Vertex> before;

  static void build() {
    std::vector<std::pair<Vertex, Vertex>> ends;
    std::vector<Value> weights;
    for (const Step &s : steps) {
      ends.emplace_back(s.from, s.to);
      weights.push_back(Kind::weight(s));
    }
    graph = Graph(edges_are_sorted, ends.begin(), ends.end(), weights.begin(), vertices());
    costs.resize(vertices());
    before.resize(vertices());
  }

  // Boost returns where what it settles costs what the unreachable does. So the visitor takes the cost of
  // the wanted arrival, and makes it that. To throw takes a microsecond longer.
  struct Visitor : dijkstra_visitor<> {
    uint32_t target;
    uint64_t *cost;
    bool *found;
    Visitor(uint32_t target, uint64_t *cost, bool *found) : target(target), cost(cost), found(found) {}
    void examine_vertex(Vertex v, const Graph &) const {
      if (node_of[v] != target) return;
      *found = true;
      *cost = costs[v];
      costs[v] = END;
    }
  };

  static bool search(uint32_t source, uint32_t target, uint64_t *cost) {
    bool found = false;
    auto index = get(vertex_index, graph);
    dijkstra_shortest_paths_no_color_map(
        graph, Vertex(beginning(source)), make_iterator_property_map(before.data(), index),
        make_iterator_property_map(costs.data(), index), get(edge_bundle, graph), index, std::less<Value>(),
        [](Value a, Value b) { return Kind::plus(a, b); }, Value(END), Value(0), Visitor(target, cost, &found));
    return found;
  }
};

static void prepare() {
  make_steps();
  Router<Sum>::build();
  Router<Few>::build();
  Router<Worst>::build();
}

static answers answer(enum kind kind) {
  return kind == SUM ? answer_by<Sum>() : kind == FEW ? answer_by<Few>() : answer_by<Worst>();
}
