// A made network as a graph, for libraries of graphs. Its vertices are the arrivals, and behind them one
// for each node, where paths begin. It is built outside of the time: a row has the steps that can be
// taken from a vertex, those that cost less first.
#include "made.h"
#include <algorithm>
#include <vector>

struct Step {
  uint32_t from, to;
  uint16_t conversion, tariff;
  bool converts;
};

static std::vector<Step> steps;
// The node of each arrival. Where paths begin is no arrival.
static std::vector<uint8_t> node_of;

static uint32_t arrivals() { return nodes * channels; }
static uint32_t vertices() { return arrivals() + nodes; }
static uint32_t beginning(uint32_t node) { return arrivals() + node; }

// The steps from a vertex by a span; `conversions` are the converters there, none where paths begin.
static void add_steps(uint32_t from, uint32_t entered, uint32_t span, const uint16_t *conversions) {
  for (uint32_t c = 0; c < channels; c++) {
    uint16_t w = tariff[span * channels + c];
    if (w == ABSENT || held[span * channels + c]) continue;
    bool converts = conversions && entered != c;
    uint16_t conversion = converts ? conversions[c] : 0;
    if (conversion != ABSENT) steps.push_back({from, head[span] * channels + c, conversion, w, converts});
  }
}

static void make_steps() {
  steps.clear();
  node_of.clear();
  for (uint32_t v = 0; v < vertices(); v++) {
    bool arrival = v < arrivals();
    uint32_t node = arrival ? v / channels : v - arrivals();
    node_of.push_back(arrival ? (uint8_t)node : UINT8_MAX);
    for (uint32_t i = starts[node]; i < starts[node + 1]; i++)
      if (!shut[order[i]]) add_steps(v, v % channels, order[i], arrival ? &converter[v * channels] : nullptr);
  }
  std::stable_sort(steps.begin(), steps.end(), [](const Step &a, const Step &b) {
    return a.from != b.from ? a.from < b.from : a.conversion + a.tariff < b.conversion + b.tariff;
  });
}

// The kinds of cost, by the smallest numbers that compare as the costs do. A step is one weight. No sum
// comes near the end of 32 bits: a cheapest path takes 1,024 spans and 1,023 conversions at most, which
// cost 134,148,098 at most.
struct Sum {
  typedef uint32_t Value;
  static Value weight(const Step &s) { return s.conversion + s.tariff; }
  static Value plus(Value a, Value b) { return a + b; }
};

// The conversions above the sum.
struct Few {
  typedef uint64_t Value;
  static Value weight(const Step &s) { return s.conversion + s.tariff + ((uint64_t)s.converts << 32); }
  static Value plus(Value a, Value b) { return a + b; }
};

struct Worst {
  typedef uint16_t Value;
  static Value weight(const Step &s) { return std::max(s.conversion, s.tariff); }
  static Value plus(Value a, Value b) { return std::max(a, b); }
};

// A library's `Router` of a kind is built of the steps, and searches.
template <class Kind> struct Router;

template <class Kind> static answers answer_by() {
  answers answers = NONE;
  for (uint32_t q = 0; q < QUERIES; q++) {
    uint64_t cost = 0;
    bool found = Router<Kind>::search(from[q], to[q], &cost);
    answers = with(answers, found, cost);
  }
  return answers;
}
