/* Reading a graph: a Standard Task Graph text, docs/PROTOCOL.md's, is read into a record, and the task is planned from
 * the bytes. A text whose tasks are not numbered upward is refused. */
#include <inttypes.h>
#include <stdio.h>

#include "planner.h"

/* Number, time, how many predecessors, and these. */
static const char text[] =
    "4\n"          /* tasks, the dummies left out */
    "0 0 0\n"      /* the dummy entry */
    "1 2 1 0\n"
    "2 4 1 1\n"
    "3 3 1 1\n"
    "4 1 2 3 2\n"  /* in any order */
    "5 0 1 4\n"    /* the dummy exit */
    "# four steps between two dummies\n";

/* Task 3 stands where task 2 is due. */
static const char damaged[] =
    "4\n"
    "0 0 0\n"
    "1 2 1 0\n"
    "3 3 1 1\n";

static const uint64_t id = 300, period = 24;

static uint8_t record[PLANNER_RECORD_BYTES];
static uint64_t words[PLANNER_WORDS]; /* its plan */

static struct planner_answer read_graph(const char *from, uint64_t length)
{
    return planner_read_graph((const uint8_t *)from, length, record, sizeof record, id, period);
}

/* Whether it was accepted. */
static int show(const char *call, struct planner_answer a)
{
    if (a.refusal == 0)
        printf("%s: %" PRIu64 "\n", call, a.value);
    else
        printf("%s: refused %" PRIu64 " at %" PRIu64 "\n", call, a.refusal, a.place);
    return a.refusal == 0;
}

static void show_bytes(uint64_t length)
{
    for (uint64_t at = 0; at < length; at++)
        printf("%02X%s", record[at], at % 16 == 15 || at + 1 == length ? "\n" : " ");
}

static void show_plan(void)
{
    const uint64_t *nodes = words + 3 + 3 * words[1];

    printf("Q %" PRIu64 ", segments %" PRIu64 ", nodes %" PRIu64 "\n", words[0], words[1], words[2]);
    for (uint64_t k = 0; k < words[2]; k++)
        printf("node %" PRIu64 " offset %" PRIu64 " deadline %" PRIu64 " density %" PRIu64 "\n",
               k, nodes[3 * k], nodes[3 * k + 1], nodes[3 * k + 2]);
}

int main(void)
{
    const uint64_t cost = 0;
    struct planner_answer answer = read_graph(text, sizeof text - 1);

    if (!show("read", answer))
        return 1;
    show_bytes(answer.value);
    if (!show("plan", planner_plan(record, answer.value, words, PLANNER_WORDS, cost)))
        return 1;
    show_plan();
    answer = read_graph(damaged, sizeof damaged - 1);
    if (!show("read a damaged text", answer))
        printf("from there on: %s", damaged + answer.place);
    return 0;
}
