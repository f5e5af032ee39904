/* Two ways to use the planner, through planner.h. At the gateway a task is admitted for the gateway's cores, and what
 * would not fit is turned away. At the desk tasks are planned and noted, and any number of cores can be asked for. */
#include <inttypes.h>
#include <stdio.h>

#include "planner.h"

/* Records: edition, id, period, number of nodes; then for each node its execution, how many parents it has, and these.
 * Two door drives, 3 units in a period of 12 and 5 in one of 15. */
static const uint8_t front[] = {0x01, 0x01, 0x0C, 0x01, 0x03, 0x00};
static const uint8_t rear[] = {0x01, 0x02, 0x0F, 0x01, 0x05, 0x00};
/* join.task, a stop at a landing: three steps meet in node 3, three more in node 7; in edition 2 these two run nothing. */
static const uint8_t stop[] = {
    0x02, 0x2B, 0x3C, 0x0B,                               /* edition, id 43, period 60, 11 nodes */
    0x04, 0x00, 0x03, 0x00, 0x03, 0x00,                   /* nodes 0 to 2: no parents */
    0x00, 0x03, 0x00, 0x01, 0x02,                         /* 3, a join */
    0x06, 0x01, 0x03, 0x04, 0x01, 0x03, 0x05, 0x01, 0x03, /* 4 to 6 */
    0x00, 0x03, 0x04, 0x05, 0x06,                         /* 7, a join */
    0x05, 0x01, 0x07, 0x04, 0x01, 0x07, 0x03, 0x01, 0x07, /* 8 to 10 */
};
/* The front door with its period padded: 8C 00 for 0C. */
static const uint8_t padded[] = {0x01, 0x01, 0x8C, 0x00, 0x01, 0x03, 0x00};
/* Four steps that cannot be run: node 1 waits for 3 (and for 0), 3 for 2 and 2 for 1. */
static const uint8_t looped[] = {0x01, 0x2D, 0x78, 0x04, 0x04, 0x00, 0x05, 0x02, 0x00, 0x03,
                                 0x07, 0x01, 0x01, 0x08, 0x01, 0x02};

static uint64_t words[PLANNER_WORDS]; /* the plan of the task last planned */

static void show(const char *call, struct planner_answer a)
{
    if (a.refusal == 0) {
        printf("%s: %" PRIu64 "\n", call, a.value);
        return;
    }
    printf("%s: refused %" PRIu64 " at %" PRIu64, call, a.refusal, a.place);
    if (a.ring != 0)
        printf(", ring");
    for (unsigned node = 0; node < 64; node++)
        if ((a.ring >> node) & 1)
            printf(" %u", node);
    printf("\n");
}

/* Both verdicts, 1 for yes and 0 for no: steps may be interrupted, or run to their end. */
static void ask(const struct planner_row *board, uint64_t cores)
{
    char call[32];

    snprintf(call, sizeof call, "ask %" PRIu64, cores);
    show(call, planner_ask(board, PLANNER_ROWS, cores));
    snprintf(call, sizeof call, "ask %" PRIu64 " to the end", cores);
    show(call, planner_ask_to_end(board, PLANNER_ROWS, cores));
}

static struct planner_answer admit(struct planner_row *board, const uint8_t *record, uint64_t length)
{
    const uint64_t cores = 3, cost = 0; /* of the gateway */

    return planner_admit(record, length, words, PLANNER_WORDS, board, PLANNER_ROWS, cores, cost);
}

/* The commissioning engineer's way. The verdict for the gateway's cores is a yes all the time. */
static void at_the_gateway(void)
{
    struct planner_row board[PLANNER_ROWS] = {0}; /* empty */
    struct planner_answer a;

    show("admit front door", admit(board, front, sizeof front));
    show("admit rear door", admit(board, rear, sizeof rear));
    a = admit(board, stop, sizeof stop);
    show("admit stop", a);
    if (a.refusal == 20) { /* three cores do not bear all three tasks, so one has to go */
        show("withdraw 2", planner_withdraw(board, PLANNER_ROWS, 2));
        show("admit stop", admit(board, stop, sizeof stop));
    }
    ask(board, 3);
}

static void plan(const char *call, const uint8_t *record, uint64_t length, uint64_t cost)
{
    show(call, planner_plan(record, length, words, PLANNER_WORDS, cost));
}

static struct planner_answer note(struct planner_row *board, const uint8_t *record, uint64_t length)
{
    return planner_note(record, length, words, PLANNER_WORDS, board, PLANNER_ROWS, 0);
}

/* The desk's way: whatever has a plan goes on the board. */
static void at_the_desk(void)
{
    struct planner_row board[PLANNER_ROWS] = {0};

    plan("plan stop", stop, sizeof stop, 0);
    printf("over %" PRIu64 ", %" PRIu64 " segments, %" PRIu64 " nodes\n", words[0], words[1], words[2]);
    plan("plan stop at cost 16", stop, sizeof stop, 16);
    plan("plan stop at cost 256", stop, sizeof stop, 256);
    plan("plan padded", padded, sizeof padded, 0);
    plan("plan looped", looped, sizeof looped, 0);
    show("note front door", note(board, front, sizeof front));
    show("note rear door", note(board, rear, sizeof rear));
    show("note rear door again", note(board, rear, sizeof rear));
    ask(board, 1);
    ask(board, 2);
    show("note stop", note(board, stop, sizeof stop));
    ask(board, 3);
    ask(board, 4);
    ask(board, 0);
}

int main(void)
{
    at_the_gateway();
    at_the_desk();
    return 0;
}
