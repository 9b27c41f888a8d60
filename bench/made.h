/* The same made networks and the same queries as crates/search_bench, and the same lines printed. A
   program that includes this defines `prepare`, which is called for each network outside of the time,
   and `answer`, which answers all queries by one kind of cost. */
#include <stdbool.h>
#include <stdint.h>
#include <stdio.h>
#include <string.h>
#include <time.h>

enum { NODES = 64, SPANS = 256, CHANNELS = 16, QUERIES = 64, ROUNDS = 50, ABSENT = 65535 };
enum kind { SUM, FEW, WORST };

static const char *const NAMES[] = {"SUM", "FEW", "WORST"};
static const uint32_t SIZES[3][3] = {{16, 4, 90}, {32, 8, 90}, {64, 16, 25}};

/* The network, what can be used of it, and its spans by their tails. */
static uint32_t nodes, channels, spans;
static uint8_t tail[SPANS], head[SPANS];
static uint16_t tariff[SPANS * CHANNELS];
static uint16_t converter[NODES * CHANNELS * CHANNELS];
static bool held[SPANS * CHANNELS], shut[SPANS];
static uint16_t order[SPANS], starts[NODES + 1];
static uint8_t from[QUERIES], to[QUERIES];

/* The numbers drawn. */
static uint64_t state;

static uint32_t below(uint32_t bound) {
  state = state * 6364136223846793005u + 1442695040888963407u;
  return (uint32_t)(state >> 33 & 0x7fffffff) % bound;
}

static void make_spans(void) {
  for (uint32_t s = 0; s < spans; s++) {
    tail[s] = (uint8_t)(s % nodes);
    head[s] = (uint8_t)((s + below(nodes - 1) + 1) % nodes);
    shut[s] = head[s] == 0;
  }
  for (uint32_t i = 0; i < spans * channels; i++)
    tariff[i] = below(4) != 0 ? (uint16_t)(below(1000) + 1) : (uint16_t)ABSENT;
}

static void make_converters(uint32_t share) {
  for (uint32_t n = 0; n < nodes; n++)
    for (uint32_t a = 0; a < channels; a++)
      for (uint32_t b = 0; b < channels; b++) {
        bool stands = a != b && below(100) < share;
        converter[(n * channels + a) * channels + b] = stands ? (uint16_t)(below(1000) + 1) : (uint16_t)ABSENT;
      }
}

static void make_index(void) {
  uint32_t end = 0;
  for (uint32_t n = 0; n < nodes; n++) {
    starts[n] = (uint16_t)end;
    for (uint32_t s = 0; s < spans; s++)
      if (tail[s] == n) order[end++] = (uint16_t)s;
  }
  starts[nodes] = (uint16_t)end;
}

static void make(const uint32_t size[3]) {
  state = 20261127;
  nodes = size[0];
  channels = size[1];
  spans = 4 * nodes;
  make_spans();
  make_converters(size[2]);
  for (uint32_t i = 0; i < spans * channels; i++) held[i] = below(10) == 0;
  for (uint32_t q = 0; q < QUERIES; q++) {
    from[q] = (uint8_t)below(nodes);
    to[q] = (uint8_t)below(nodes);
  }
  make_index();
}

/* The answers: how many were found, and a digest of what they cost. */
struct answers {
  uint32_t found;
  uint64_t digest;
};

static const struct answers NONE = {0, 0xcbf29ce484222325u};

static inline struct answers with(struct answers answers, bool found, uint64_t cost) {
  answers.found += found;
  answers.digest = (answers.digest ^ (found ? cost : UINT64_MAX)) * 0x100000001b3u;
  return answers;
}

static void prepare(void);
static struct answers answer(enum kind kind);

static uint64_t now(void) {
  struct timespec time;
  clock_gettime(CLOCK_THREAD_CPUTIME_ID, &time);
  return (uint64_t)time.tv_sec * 1000000000u + (uint64_t)time.tv_nsec;
}

static void report(enum kind kind, bool timed) {
  struct answers answers = answer(kind);
  uint64_t best = UINT64_MAX;
  for (int round = 0; timed && round < ROUNDS; round++) {
    uint64_t start = now();
    answers = answer(kind);
    uint64_t time = now() - start;
    if (time < best) best = time;
  }
  printf("%u %u %u %s %u %016llx", nodes, channels, spans, NAMES[kind], answers.found, (unsigned long long)answers.digest);
  if (timed) {
    uint64_t each = (best / QUERIES + 5) / 10;
    printf(" %llu.%02llu", (unsigned long long)(each / 100), (unsigned long long)(each % 100));
  }
  printf("\n");
}

int main(int count, char **words) {
  bool timed = count > 1 && strcmp(words[1], "time") == 0;
  for (int size = 0; size < 3; size++) {
    make(SIZES[size]);
    prepare();
    for (int kind = SUM; kind <= WORST; kind++) report((enum kind)kind, timed);
  }
}
