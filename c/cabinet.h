/* The route controller, called from C. docs/linking.md explains it, with a worked example.
 *
 * A caller keeps a plan and a list of requests. cabinet_run opens a book for the plan's network, all free
 * and open, and serves the requests at it, one after the other; each gets a reply, and slips are written
 * into the caller's switches. Nothing is kept between two calls: to go on, add a request to the list and
 * run it again. Leaving requests out of the list can move circuits to other paths, and so can another build
 * of the library: docs/linking.md says what can be left out.
 *
 * What the caller owes, which nothing checks:
 * - Each pointer is aligned, is not null (where its length is 0 too), and points to as many elements as the
 *   length behind it says, all of which have been given some value.
 * - What `replies` and `switches` point to overlaps neither each other nor `plan` or `requests`, and nobody
 *   else reads or writes it until the call returns. Nobody writes to `plan` or `requests` until then.
 * - The stack has 256 KB left.
 * - The numbers in the plan, the requests and the old replies and switches may be any.
 *
 * The library allocates nothing, keeps nothing, and calls memcpy and memset alone. It may be called from
 * several threads at once. */
#ifndef CABINET_H
#define CABINET_H

#include <stddef.h>
#include <stdint.h>

#ifdef __cplusplus
extern "C" {
#endif

/* What a request asks for. Any other number is refused with 16.
 *
 * One offer is in hand at a time. CONFIRM and WITHDRAW spend it. OFFER withdraws it first, also where it is
 * then refused itself, but with 19: no such call (16) or kind (19) leaves it in hand, and so do DARKEN, SHUT
 * and SLIP. */
enum {
    CABINET_OFFER = 1,    /* circuit, from, to, kind: a cheapest path is taken, and the offer is in hand */
    CABINET_CONFIRM = 2,  /* the offer in hand: its circuit is lit */
    CABINET_WITHDRAW = 3, /* the offer in hand: its circuit and its channels are free */
    CABINET_DARKEN = 4,   /* circuit: a lit circuit and its channels are free */
    CABINET_SHUT = 5,     /* span: it is barred from later offers */
    CABINET_SLIP = 6      /* circuit, place: its slip is written from switches[place] on, whole or not (28) */
};

/* The kinds of cost. Any other number is refused with 19. */
enum {
    CABINET_SUM = 0,  /* the tariffs added up */
    CABINET_FEW = 1,  /* the fewest conversions, and among those the smallest sum */
    CABINET_WORST = 2 /* the largest tariff */
};

/* The span of a switch's input where the path begins, and of its output where it ends. */
enum { CABINET_NO_SPAN = 65535 };

/* A request. A call reads the fields that are named above, and no other. */
struct cabinet_request {
    uint8_t call;
    uint8_t kind;
    uint16_t circuit;
    uint16_t from;
    uint16_t to;
    uint16_t span;
    size_t place;
};

/* A reply. `refusal` is 0, or the number of the refusal (docs/refusals.md), and then all else is 0.
 * `count` is: of OFFER, how many steps the path has; of CONFIRM, the circuit; of WITHDRAW and DARKEN, how
 * many channels are free again; of SLIP, how many switches are written; of SHUT 0.
 * `cost` and `conversions` are told by OFFER alone, and the conversions by FEW alone. */
struct cabinet_reply {
    uint8_t refusal;
    uint16_t conversions;
    uint32_t cost;
    size_t count;
};

/* What one node's cabinet is told: join the input, a span and the label of the channel on it, to the
 * output. A label is 0 where there is no span. */
struct cabinet_switch {
    uint8_t node;
    uint16_t input_span;
    uint16_t output_span;
    uint32_t input_label;
    uint32_t output_label;
};

/* What a call answers. `refusal` is 0, or the number of the plan's first fault, 1 to 9, which is at byte
 * `place` of the plan. `served` is how many requests were served. */
struct cabinet_answer {
    uint8_t refusal;
    size_t place;
    size_t served;
};

/* Judges a plan (docs/plan-file.md). `served` is 0. */
struct cabinet_answer cabinet_check_plan(const uint8_t *plan, size_t plan_len);

/* Serves as many of the requests as there is room for replies: reply i is that to request i, and the
 * replies behind stay as they were. Where the plan is refused, nothing is written. */
struct cabinet_answer cabinet_run(const uint8_t *plan, size_t plan_len,
                                  const struct cabinet_request *requests, size_t requests_len,
                                  struct cabinet_reply *replies, size_t replies_len,
                                  struct cabinet_switch *switches, size_t switches_len);

#ifdef __cplusplus
}
#endif

#endif
