/* A cabinet's program in C: it judges a plan, asks for an offer, looks at what the path would switch,
 * decides, and prints what each node's cabinet is told. c/run builds it, runs it, and compares what it
 * prints with c/example.out. */
#include "cabinet.h"
#include "sample.h"

#include <stdio.h>
#include <stdlib.h>

enum { REQUESTS = 16, SWITCHES = 8 };

/* All that there is to keep: the requests so far. What comes of them is told anew by each run. */
static struct cabinet_request requests[REQUESTS];
static struct cabinet_reply replies[REQUESTS];
static struct cabinet_switch switches[SWITCHES];
static size_t asked;

static void stop(const char *why)
{
    fprintf(stderr, "%s\n", why);
    exit(1);
}

/* Adds a request to the list and runs the list; the answer is the last reply. */
static struct cabinet_reply ask(struct cabinet_request request)
{
    struct cabinet_answer run;

    if (asked == REQUESTS)
        stop("the list of requests is full");
    requests[asked++] = request;
    run = cabinet_run(PLAN, sizeof PLAN, requests, asked, replies, asked, switches, SWITCHES);
    if (run.refusal != 0)
        stop("the plan is refused");
    if (run.served != asked)
        stop("there is no room for all replies");
    return replies[asked - 1];
}

static void print_offer(struct cabinet_reply reply)
{
    if (reply.refusal != 0)
        printf("no offer: refusal %d\n", reply.refusal);
    else
        printf("offered: %lu by %zu steps\n", (unsigned long)reply.cost, reply.count);
}

static void print_port(uint16_t span, uint32_t label)
{
    if (span == CABINET_NO_SPAN)
        printf(" - -");
    else
        printf(" %d %08lX", span, (unsigned long)label);
}

/* The slip of a circuit, a line for each node that its path passes. */
static void print_slip(uint16_t circuit)
{
    struct cabinet_request slip = {.call = CABINET_SLIP, .circuit = circuit, .place = 0};
    struct cabinet_reply reply = ask(slip);
    if (reply.refusal != 0)
        printf("no slip of circuit %d: refusal %d\n", circuit, reply.refusal);
    for (size_t i = 0; i < reply.count; i++) {
        printf("node %d:", switches[i].node);
        print_port(switches[i].input_span, switches[i].input_label);
        print_port(switches[i].output_span, switches[i].output_label);
        printf("\n");
    }
}

static void judge_plans(void)
{
    struct cabinet_answer plan = cabinet_check_plan(PLAN, sizeof PLAN);
    printf("plan: %d\n", plan.refusal);
    plan = cabinet_check_plan(PLAN, 72);
    printf("plan without its last byte: %d at %zu\n", plan.refusal, plan.place);
}

/* Confirms an offer that costs 7 or less, and withdraws any other. */
static void settle(struct cabinet_reply offered)
{
    struct cabinet_request settling = {.call = offered.cost <= 7 ? CABINET_CONFIRM : CABINET_WITHDRAW};
    struct cabinet_reply reply;

    if (offered.refusal != 0)
        return;
    reply = ask(settling);
    if (settling.call == CABINET_CONFIRM)
        printf("confirmed: refusal %d, circuit %zu\n", reply.refusal, reply.count);
    else
        printf("withdrawn: refusal %d, channels back %zu\n", reply.refusal, reply.count);
}

int main(void)
{
    struct cabinet_request offer = {
        .call = CABINET_OFFER, .kind = CABINET_SUM, .circuit = 1, .from = 0, .to = 3};
    struct cabinet_request shut = {.call = CABINET_SHUT, .span = 2};
    struct cabinet_request darken = {.call = CABINET_DARKEN, .circuit = 1};
    struct cabinet_reply reply;

    judge_plans();

    /* An offer is in hand, and its slip is seen, before it is settled. */
    reply = ask(offer);
    print_offer(reply);
    print_slip(1);
    settle(reply);

    /* The next path costs more. */
    offer.circuit = 2;
    reply = ask(offer);
    print_offer(reply);
    settle(reply);

    /* With span 2 shut there is no path left. */
    printf("shut: refusal %d\n", ask(shut).refusal);
    print_offer(ask(offer));
    print_slip(2);
    print_slip(1);

    reply = ask(darken);
    printf("darkened: refusal %d, channels back %zu\n", reply.refusal, reply.count);
    offer.kind = CABINET_FEW;
    reply = ask(offer);
    printf("by FEW: refusal %d, %d+%lu by %zu steps\n", reply.refusal, reply.conversions,
           (unsigned long)reply.cost, reply.count);
    return 0;
}
