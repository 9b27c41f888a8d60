// The queries of made.h, answered by LEMON: its Dijkstra over a static digraph, by its heap of 16 children.
#include "arrivals.hpp"
#include <lemon/dheap.h>
#include <lemon/dijkstra.h>
#include <lemon/static_graph.h>
#include <memory>

using namespace lemon;
typedef StaticDigraph::Node Node;

static StaticDigraph graph;

// Whether an arrival is at the wanted node.
struct Wanted {
  typedef Node Key;
  typedef bool Value;
  uint32_t target;
  bool operator[](Node v) const { return node_of[StaticDigraph::index(v)] == target; }
};

template <class Kind> struct Router {
  typedef typename Kind::Value Value;
  struct Operations : DijkstraDefaultOperationTraits<Value> {
    static Value plus(Value a, Value b) { return Kind::plus(a, b); }
  };
  typedef StaticDigraph::ArcMap<Value> Weights;
  typedef StaticDigraph::NodeMap<int> Places;
  typedef NullMap<Node, Value> NoCosts;
  typedef typename Dijkstra<StaticDigraph, Weights>::template SetOperationTraits<Operations>::template SetDistMap<
      NoCosts>::template SetStandardHeap<DHeap<Value, Places>, Places>::Create Search;
  inline static std::unique_ptr<Weights> weights;
  inline static std::unique_ptr<Search> run;
  inline static NoCosts costs;

  static void clear() {
    run.reset();
    weights.reset();
  }

  static void build() {
    weights = std::make_unique<Weights>(graph);
    for (size_t i = 0; i < steps.size(); i++) (*weights)[StaticDigraph::arc((int)i)] = Kind::weight(steps[i]);
    run = std::make_unique<Search>(graph, *weights);
    run->distMap(costs);
  }

  // The arrival that is found stands at the heap's top, so no map of costs is written.
  static bool search(uint32_t source, uint32_t target, uint64_t *cost) {
    run->init();
    run->addSource(StaticDigraph::node((int)beginning(source)));
    Node end = run->start(Wanted{target});
    if (end == INVALID) return false;
    *cost = run->currentDist(end);
    return true;
  }
};

static void prepare() {
  make_steps();
  std::vector<std::pair<int, int>> ends;
  for (const Step &s : steps) ends.emplace_back(s.from, s.to);
  Router<Sum>::clear();
  Router<Few>::clear();
  Router<Worst>::clear();
  graph.build((int)vertices(), ends.begin(), ends.end());
  Router<Sum>::build();
  Router<Few>::build();
  Router<Worst>::build();
}

static answers answer(enum kind kind) {
  return kind == SUM ? answer_by<Sum>() : kind == FEW ? answer_by<Few>() : answer_by<Worst>();
}
