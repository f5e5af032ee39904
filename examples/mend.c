/* Mending a record: the door drive of door.task, as a sloppy editor wrote it, is refused, mended, and planned from what
 * was mended. There is nothing more to mend in that. */
#include <inttypes.h>
#include <stdio.h>

#include "planner.h"

/* Three numbers are padded with groups of zeros, one list is in drawing order, and two lists say a parent twice. */
static const uint8_t given[] = {
    0x01, 0x29, 0xAD, 0x00, 0x0C,                   /* edition, id 41, period 45 padded, 12 steps */
    0x04, 0x00, 0x04, 0x00, 0x03, 0x00, 0x02, 0x00, /* 0 to 3 wait for none */
    0x85, 0x80, 0x80, 0x00, 0x02, 0x00, 0x01,       /* 4 runs 5, padded, and waits for 0 and 1 */
    0x07, 0x02, 0x02, 0x03,                         /* 5 */
    0x05, 0x01, 0x03,                               /* 6 */
    0x05, 0x01, 0x02,                               /* 7 */
    0x09, 0x04, 0x06, 0x04, 0x05, 0x04,             /* 8 waits for 6, 4, 5, and 4 again */
    0x08, 0x02, 0x04, 0x05,                         /* 9 */
    0x09, 0x02, 0x04, 0x07,                         /* 10 */
    0x0A, 0x03, 0x06, 0x07, 0x87, 0x00,             /* 11 waits for 6, 7, and 7 again, padded */
};

static uint8_t record[PLANNER_RECORD_BYTES], again[PLANNER_RECORD_BYTES];
static uint64_t words[PLANNER_WORDS]; /* its plan */

/* Whether it was accepted. */
static int show(const char *call, struct planner_answer a)
{
    if (a.refusal == 0)
        printf("%s: %" PRIu64 "\n", call, a.value);
    else
        printf("%s: refused %" PRIu64 " at %" PRIu64 "\n", call, a.refusal, a.place);
    return a.refusal == 0;
}

static int show_mending(const char *call, struct planner_mending m)
{
    if (!show(call, m.answer))
        return 0;
    printf("padded %" PRIu64 " reordered %" PRIu64 " dropped %" PRIu64 "\n", m.padded, m.reordered, m.dropped);
    return 1;
}

static void show_bytes(uint64_t length)
{
    for (uint64_t at = 0; at < length; at++)
        printf("%02X%s", record[at], at % 16 == 15 || at + 1 == length ? "\n" : " ");
}

int main(void)
{
    const uint64_t cost = 0;
    struct planner_mending mended;
    uint64_t length;

    show("plan as given", planner_plan(given, sizeof given, words, PLANNER_WORDS, cost));
    mended = planner_mend(given, sizeof given, record, sizeof record);
    if (!show_mending("mend", mended))
        return 1;
    length = mended.answer.value;
    show_bytes(length);
    if (!show("plan as mended", planner_plan(record, length, words, PLANNER_WORDS, cost)))
        return 1;
    printf("Q %" PRIu64 ", segments %" PRIu64 ", steps %" PRIu64 "\n", words[0], words[1], words[2]);
    show_mending("mend again", planner_mend(record, length, again, sizeof again));
    return 0;
}
