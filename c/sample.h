/* The plan that example.c and cases.c run on. */
#ifndef SAMPLE_H
#define SAMPLE_H

#include <stdint.h>

/* The sample network: 4 nodes, 2 channels, 4 spans, 1 converter (docs/plan-file.md). */
static const uint8_t PLAN[73] = {
    1, 1, 4, 2, 0, 4, 0, 1, 0, 0, 0, 40, 0, 0, 0, 4, 0, 0, 0, 44, 0, 0, 0, 8, 0,
    0, 0, 52, 0, 0, 0, 16, 0, 0, 0, 68, 0, 0, 0, 5, 0, 0, 0, 1, 0, 1, 1, 3, 0, 2,
    2, 3, 0, 2, 255, 255, 255, 255, 0, 3, 0, 4, 0, 4, 0, 5, 255, 255, 1, 0, 1, 0, 1,
};

#endif
