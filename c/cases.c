/* Tries what cabinet.h says beyond the example: each case is a request with the reply that is due. It prints
 * what differs, and answers 1 where anything does. c/run builds it and runs it. */
#include "cabinet.h"
#include "sample.h"

#include <stdio.h>

enum { SUM = CABINET_SUM, FEW = CABINET_FEW, WORST = CABINET_WORST, SWITCHES = 8, ROOM = 64 };

struct trial {
    struct cabinet_request request;
    struct cabinet_reply due; /* refusal, conversions, cost, count */
};

#define OFFER(c, s, t, k) {.call = CABINET_OFFER, .kind = k, .circuit = c, .from = s, .to = t}
#define CONFIRM {.call = CABINET_CONFIRM}
#define WITHDRAW {.call = CABINET_WITHDRAW}
#define DARKEN(c) {.call = CABINET_DARKEN, .circuit = c}
#define SHUT(e) {.call = CABINET_SHUT, .span = e}
#define SLIP(c, p) {.call = CABINET_SLIP, .circuit = c, .place = p}
#define CALL(k) {.call = k}
#define REFUSED(k) {k, 0, 0, 0}
#define COUNTED(k) {0, 0, 0, k}

/* One list, in its order. */
static const struct trial TRIALS[] = {
    /* no such call or kind, with no offer in hand */
    {CALL(0), REFUSED(16)},
    {CALL(7), REFUSED(16)},
    {CALL(255), REFUSED(16)},
    {OFFER(1, 0, 3, 3), REFUSED(19)},
    {CONFIRM, REFUSED(23)},
    {WITHDRAW, REFUSED(23)},
    /* with one in hand they leave it, and so do SHUT, and refused DARKENs and SLIPs */
    {OFFER(1, 0, 3, SUM), {0, 0, 6, 2}},
    {OFFER(1, 0, 3, 9), REFUSED(19)},
    {CONFIRM, COUNTED(1)},
    {OFFER(2, 0, 3, WORST), {0, 0, 5, 2}},
    {CALL(9), REFUSED(16)},
    {SHUT(4), REFUSED(26)},
    {SHUT(65535), REFUSED(26)},
    {SHUT(1), COUNTED(0)},
    {DARKEN(2), REFUSED(23)},
    {DARKEN(128), REFUSED(21)},
    {SLIP(3, 0), REFUSED(23)},
    {WITHDRAW, COUNTED(2)},
    {WITHDRAW, REFUSED(23)},
    /* a slip at a place: there is room up to place 5 */
    {SLIP(1, 2), COUNTED(3)},
    {SLIP(1, 6), REFUSED(28)},
    {SLIP(1, 8), REFUSED(28)},
    {SLIP(1, SIZE_MAX), REFUSED(28)},
    {SLIP(1, SIZE_MAX - 2), REFUSED(28)},
    {SLIP(2, SIZE_MAX), REFUSED(23)},
    {SLIP(128, SIZE_MAX), REFUSED(21)},
    {SLIP(1, 5), COUNTED(3)},
    /* an offer withdraws the one in hand, and a refused one does too */
    {OFFER(2, 0, 3, FEW), {0, 0, 9, 2}},
    {OFFER(3, 0, 3, FEW), {0, 0, 9, 2}},
    {SLIP(2, 0), REFUSED(23)},
    {OFFER(4, 0, 0, SUM), REFUSED(25)},
    {CONFIRM, REFUSED(23)},
    {OFFER(3, 0, 3, WORST), {0, 0, 5, 2}},
    {OFFER(128, 0, 3, SUM), REFUSED(21)},
    {OFFER(4, 0, 4, SUM), REFUSED(24)},
    {OFFER(4, 3, 0, SUM), REFUSED(29)},
    {OFFER(1, 0, 3, SUM), REFUSED(23)},
    {CONFIRM, REFUSED(23)},
    /* another circuit is darkened while an offer is in hand */
    {OFFER(2, 0, 3, SUM), {0, 0, 9, 2}},
    {DARKEN(1), COUNTED(2)},
    {CONFIRM, COUNTED(2)},
};

enum { TRIALS_LEN = sizeof TRIALS / sizeof TRIALS[0] };

/* The slip of circuit 1, which is written from place 2 and from place 5 on. */
static const struct cabinet_switch SLIP_OF_1[3] = {
    {0, CABINET_NO_SPAN, 0, 0, 0x22000000},
    {1, 0, 1, 0x22000000, 0x22000001},
    {3, 1, CABINET_NO_SPAN, 0x22000001, 0},
};

static const struct cabinet_reply OLD_REPLY = {99, 99, 99, 99};
static const struct cabinet_switch OLD_SWITCH = {99, 99, 99, 99, 99};

static struct cabinet_request requests[TRIALS_LEN];
static struct cabinet_reply replies[ROOM];
static struct cabinet_switch switches[SWITCHES];
static int wrong;

static void check(const char *what, size_t where, int holds)
{
    if (!holds) {
        printf("%s %zu is not as it must be\n", what, where);
        wrong = 1;
    }
}

static int same_reply(struct cabinet_reply a, struct cabinet_reply b)
{
    return a.refusal == b.refusal && a.conversions == b.conversions && a.cost == b.cost && a.count == b.count;
}

static int same_switch(struct cabinet_switch a, struct cabinet_switch b)
{
    return a.node == b.node && a.input_span == b.input_span && a.output_span == b.output_span
        && a.input_label == b.input_label && a.output_label == b.output_label;
}

/* Runs the list, with room for so many replies, over arrays that hold something else. */
static struct cabinet_answer run(size_t plan_len, size_t requests_len, size_t replies_len)
{
    for (size_t i = 0; i < ROOM; i++)
        replies[i] = OLD_REPLY;
    for (size_t i = 0; i < SWITCHES; i++)
        switches[i] = OLD_SWITCH;
    return cabinet_run(PLAN, plan_len, requests, requests_len, replies, replies_len, switches, SWITCHES);
}

/* The first so many replies are those that are due, and the others stay. */
static void check_replies(size_t served)
{
    for (size_t i = 0; i < ROOM; i++)
        check("reply", i, same_reply(replies[i], i < served ? TRIALS[i].due : OLD_REPLY));
}

static void check_no_slip(void)
{
    for (size_t i = 0; i < SWITCHES; i++)
        check("switch", i, same_switch(switches[i], OLD_SWITCH));
}

static void check_answer(const char *what, struct cabinet_answer answer, struct cabinet_answer due)
{
    check(what, 0, answer.refusal == due.refusal);
    check(what, 1, answer.place == due.place);
    check(what, 2, answer.served == due.served);
}

/* More room for replies than there are requests, then less, then none. */
static void try_rooms(void)
{
    check_answer("run of all", run(sizeof PLAN, TRIALS_LEN, ROOM), (struct cabinet_answer){0, 0, TRIALS_LEN});
    check_replies(TRIALS_LEN);
    for (size_t i = 0; i < SWITCHES; i++)
        check("switch", i, same_switch(switches[i], i < 2 ? OLD_SWITCH : SLIP_OF_1[(i - 2) % 3]));

    check_answer("run of 9", run(sizeof PLAN, TRIALS_LEN, 9), (struct cabinet_answer){0, 0, 9});
    check_replies(9);
    check_no_slip();

    check_answer("run of none", run(sizeof PLAN, TRIALS_LEN, 0), (struct cabinet_answer){0, 0, 0});
    check_replies(0);
    check_no_slip();
}

/* Where the plan is refused, nothing is written. */
static void try_refused(void)
{
    check_answer("refused run", run(72, TRIALS_LEN, ROOM), (struct cabinet_answer){6, 32, 0});
    check_replies(0);
    check_no_slip();
    check_answer("refused plan", cabinet_check_plan(PLAN, 39), (struct cabinet_answer){1, 0, 0});
    check_answer("plan", cabinet_check_plan(PLAN, sizeof PLAN), (struct cabinet_answer){0, 0, 0});
}

int main(void)
{
    for (size_t i = 0; i < TRIALS_LEN; i++)
        requests[i] = TRIALS[i].request;
    try_rooms();
    try_refused();
    if (!wrong)
        printf("%d requests, each as it must be\n", (int)TRIALS_LEN);
    return wrong;
}
