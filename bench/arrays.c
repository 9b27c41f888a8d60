/* The queries of made.h, answered over plain arrays: Dijkstra over arrivals (a node, and the channel on
   which it was entered). The open arrivals stand in a list that is scanned for the least cost. It ends
   at the first settled arrival at the wanted node, and looks only at the spans that leave a node. */
#include "made.h"

/* The costs, as numbers that compare as the costs do: FEW has its conversions above the sum. What
   SUM and FEW stop at is far above what these networks cost. */
static inline uint64_t after_span(enum kind kind, uint64_t cost, uint16_t w) {
  return kind == WORST ? (cost > w ? cost : w) : cost + w;
}

static inline uint64_t after_conversion(enum kind kind, uint64_t cost, uint16_t w) {
  return kind == FEW ? cost + w + (1ull << 32) : after_span(kind, cost, w);
}

/* One search: of each arrival its cost, whether it is known and settled, and the step before. */
struct label {
  uint64_t cost;
  uint16_t span, before;
  uint8_t known, settled;
};
static struct label labels[NODES * CHANNELS];
static uint16_t open[NODES * CHANNELS];
static uint32_t opened;

static inline void offer(uint32_t at, uint64_t cost, uint32_t span, uint32_t before) {
  struct label *label = &labels[at];
  if (label->settled || (label->known && label->cost <= cost)) return;
  if (!label->known) open[opened++] = (uint16_t)at;
  *label = (struct label){cost, (uint16_t)span, (uint16_t)before, 1, 0};
}

static inline void try_steps(enum kind kind, uint32_t node, int entered, uint64_t cost, uint32_t before) {
  const uint16_t *conversions = &converter[(node * channels + (entered < 0 ? 0 : (uint32_t)entered)) * channels];
  for (uint32_t i = starts[node]; i < starts[node + 1]; i++) {
    uint32_t span = order[i];
    if (shut[span]) continue;
    for (uint32_t c = 0; c < channels; c++) {
      uint16_t w = tariff[span * channels + c];
      if (w == ABSENT || held[span * channels + c]) continue;
      uint64_t value = cost;
      if (entered >= 0 && (uint32_t)entered != c) {
        if (conversions[c] == ABSENT) continue;
        value = after_conversion(kind, value, conversions[c]);
      }
      offer(head[span] * channels + c, after_span(kind, value, w), span, before);
    }
  }
}

static inline uint32_t take_least(void) {
  uint32_t best = 0;
  uint64_t cost = labels[open[0]].cost;
  for (uint32_t i = 1; i < opened; i++)
    if (labels[open[i]].cost < cost) {
      best = i;
      cost = labels[open[i]].cost;
    }
  uint32_t at = open[best];
  open[best] = open[--opened];
  labels[at].settled = 1;
  return at;
}

static inline bool search(enum kind kind, uint32_t source, uint32_t target, uint64_t *cost) {
  memset(labels, 0, nodes * channels * sizeof labels[0]);
  opened = 0;
  try_steps(kind, source, -1, 0, ABSENT);
  while (opened > 0) {
    uint32_t at = take_least();
    uint32_t node = at / channels;
    *cost = labels[at].cost;
    if (node == target) return true;
    try_steps(kind, node, (int)(at % channels), *cost, at);
  }
  return false;
}

static void prepare(void) {}

static inline struct answers answer_by(enum kind kind) {
  struct answers answers = NONE;
  for (uint32_t q = 0; q < QUERIES; q++) {
    uint64_t cost = 0;
    bool found = search(kind, from[q], to[q], &cost);
    answers = with(answers, found, cost);
  }
  return answers;
}

/* Each kind gets code of its own. */
static struct answers answer(enum kind kind) {
  switch (kind) {
  case SUM: return answer_by(SUM);
  case FEW: return answer_by(FEW);
  default: return answer_by(WORST);
  }
}
