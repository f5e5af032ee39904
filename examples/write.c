/* Writing a record: the door drive of door.task is given as two arrays, written, and planned from the bytes. The figures
 * are those of door.sheet. A buffer that is a byte short is refused. */
#include <inttypes.h>
#include <stdio.h>

#include "planner.h"

#define STEPS 12
#define STEP(k) (UINT64_C(1) << (k))

/* How long each step runs, and the set of steps that it waits for. */
static const uint64_t runs[STEPS] = {4, 4, 3, 2, 5, 7, 5, 5, 9, 8, 9, 10};
static const uint64_t waits[STEPS] = {
    0, 0, 0, 0,                  /* 0 to 3: landing calls, car panel, light curtain and encoder are read */
    STEP(0) | STEP(1),           /* 4: merges the calls */
    STEP(2) | STEP(3),           /* 5: merges curtain and encoder */
    STEP(3),                     /* 6: works out the door's speed */
    STEP(2),                     /* 7: tests the curtain's beams */
    STEP(4) | STEP(5) | STEP(6), /* 8: commands the motor */
    STEP(4) | STEP(5),           /* 9: commands the lock */
    STEP(4) | STEP(7),           /* 10: commands the lamps */
    STEP(6) | STEP(7),           /* 11: sends the status frame */
};
static const uint64_t id = 41, period = 45;

static uint8_t record[PLANNER_RECORD_BYTES];
static uint64_t words[PLANNER_WORDS]; /* its plan */

static struct planner_answer write_door(uint64_t length)
{
    const uint64_t edition = 1; /* every step runs */

    return planner_write_record(runs, STEPS, waits, STEPS, record, length, edition, id, period);
}

/* Whether it was accepted. */
static int show(const char *call, struct planner_answer a)
{
    if (a.refusal == 0)
        printf("%s: %" PRIu64 "\n", call, a.value);
    else
        printf("%s: refused %" PRIu64 " at %" PRIu64 "\n", call, a.refusal, a.place);
    return a.refusal == 0;
}

static void show_bytes(uint64_t length)
{
    for (uint64_t at = 0; at < length; at++)
        printf("%02X%s", record[at], at % 16 == 15 || at + 1 == length ? "\n" : " ");
}

/* What plansheet prints, from the plan's words. */
static void show_sheet(void)
{
    const uint64_t *segments = words + 3, *nodes = segments + 3 * words[1];
    uint64_t work = 0, path = 0, sum = 0, max = 0;

    for (const uint64_t *segment = segments; segment < nodes; segment += 3) {
        work += segment[0] * segment[1];
        path += segment[1];
    }
    printf("task %" PRIu64 " period %" PRIu64 " work %" PRIu64 " path %" PRIu64 " over %" PRIu64 "\n",
           id, period, work, path, words[0]);
    for (uint64_t j = 0; j < words[1]; j++)
        printf("seg %" PRIu64 " threads %" PRIu64 " length %" PRIu64 " deadline %" PRIu64 "\n",
               j, segments[3 * j], segments[3 * j + 1], segments[3 * j + 2]);
    for (uint64_t k = 0; k < words[2]; k++) {
        const uint64_t density = nodes[3 * k + 2];

        printf("node %" PRIu64 " offset %" PRIu64 " deadline %" PRIu64 " density %" PRIu64 "\n",
               k, nodes[3 * k], nodes[3 * k + 1], density);
        sum += density;
        max = density > max ? density : max;
    }
    printf("sum %" PRIu64 " max %" PRIu64 "\n", sum, max);
}

int main(void)
{
    struct planner_answer written = write_door(sizeof record);

    if (!show("write", written))
        return 1;
    show_bytes(written.value);
    if (!show("plan", planner_plan(record, written.value, words, PLANNER_WORDS, 0)))
        return 1;
    show_sheet();
    show("write into a byte less", write_door(written.value - 1));
    return 0;
}
