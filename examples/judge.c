/* A plan on its way to another tool and back: a task is planned, its plan record written, read back and judged. Then
 * another tool's plan is, which moves time from one segment to another; and that plan with one word spoilt. */
#include <inttypes.h>
#include <stdio.h>

#include "planner.h"

/* The listing of document 01: three steps, of which the last waits for the one before it, and a period of 6. */
static const uint8_t record[] = {1, 3, 6, 3, 3, 0, 1, 0, 1, 1, 1};
static const uint64_t id = 3, cost = 0;

static uint8_t plan[PLANNER_PLAN_BYTES];
static uint64_t length; /* of what was written of it */

/* Whether it was accepted. */
static int show(const char *call, struct planner_answer a)
{
    if (a.refusal == 0)
        printf("%s: %" PRIu64 "\n", call, a.value);
    else
        printf("%s: refused %" PRIu64 " at %" PRIu64 "\n", call, a.refusal, a.place);
    return a.refusal == 0;
}

static void show_words(const uint64_t *words)
{
    const uint64_t count = 3 + 3 * words[1] + 3 * words[2];

    for (uint64_t at = 0; at < count; at++)
        printf("%" PRIu64 "%s", words[at], at % 3 == 2 ? at + 1 == count ? "\n" : ", " : " ");
}

/* The plan record of these words, in place of the last one. */
static int write_plan(const uint64_t *words)
{
    struct planner_answer a = planner_write_plan(words, PLANNER_WORDS, plan, sizeof plan, id);

    length = a.value;
    return show("write", a);
}

static int judge(const char *whose, uint64_t *words)
{
    return show(whose, planner_judge(record, sizeof record, plan, length, words, PLANNER_WORDS, cost));
}

int main(void)
{
    static uint64_t words[PLANNER_WORDS], other[PLANNER_WORDS], judged[PLANNER_WORDS];

    if (!show("plan", planner_plan(record, sizeof record, words, PLANNER_WORDS, cost)) || !write_plan(words))
        return 1;
    for (uint64_t at = 0; at < length; at++)
        printf("%02X%s", plan[at], at + 1 == length ? "\n" : " ");
    if (!show("read", planner_read_plan(plan, length, other, PLANNER_WORDS)))
        return 1;
    show_words(other);
    if (!judge("judge our own", judged))
        return 1;

    /* The second step gets a fifth more of a time unit, and the third, which waits for it, a fifth less. */
    other[5] = 13, other[8] = 11;
    other[16] = 13, other[17] = 384616;
    other[18] = 13, other[19] = 11, other[20] = 454546;
    if (!write_plan(other) || !judge("judge the other", judged))
        return 1;
    show_words(judged);

    other[20] -= 1; /* a density rounded down */
    if (!write_plan(other))
        return 1;
    judge("judge a density rounded down", judged);
    other[18] = 5; /* the time at which the last step starts if nothing holds it up */
    if (!write_plan(other))
        return 1;
    judge("judge a start for an offset", judged);
    return 0;
}
