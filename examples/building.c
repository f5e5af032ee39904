/* Counting a building: three records are written into one file, each with its length before it, and the file is walked
 * without a cost, with one, and with a length that is damaged. */
#include <inttypes.h>
#include <stdio.h>

#include "planner.h"

/* Three steps, of which the last waits for the one before it; two that wait for each other; three that wait for a first. */
static const uint64_t listing[] = {3, 1, 1}, listing_parents[] = {0, 0, 1 << 1};
static const uint64_t ring[] = {1, 1}, ring_parents[] = {1 << 1, 1 << 0};
static const uint64_t fork[] = {2, 1, 1, 1}, fork_parents[] = {0, 1 << 0, 1 << 0, 1 << 0};

static uint8_t file[64];
static uint64_t length; /* of what was written of it */

/* A record behind the others. Its length is below 128, so that it is one byte. */
static int append(const uint64_t *executions, const uint64_t *parents, uint64_t nodes, uint64_t id, uint64_t period)
{
    struct planner_answer a = planner_write_record(executions, nodes, parents, nodes, file + length + 1,
                                                   sizeof file - length - 1, 1, id, period);

    if (a.refusal != 0)
        return 0;
    file[length] = (uint8_t)a.value;
    length += 1 + a.value;
    return 1;
}

static void show(const char *call, struct planner_counts c)
{
    if (c.answer.refusal == 0)
        printf("%s: %" PRIu64 " records\n", call, c.answer.value);
    else
        printf("%s: ended by %" PRIu64 " at %" PRIu64 "\n", call, c.answer.refusal, c.answer.place);
    printf("accepted %" PRIu64 " of %" PRIu64, c.accepted, c.records);
    for (int k = 0; k < PLANNER_NUMBERS; k++)
        if (c.refused[k] != 0)
            printf(", refused by %d: %" PRIu64, k, c.refused[k]);
    printf("\nnodes %" PRIu64 " segments %" PRIu64 " work %" PRIu64, c.nodes, c.segments, c.work);
    printf(" heavy %" PRIu64 " light %" PRIu64 " dense %" PRIu64 "\n", c.heavy, c.light, c.dense);
}

int main(void)
{
    uint64_t last;

    if (!append(listing, listing_parents, 3, 3, 6) || !append(ring, ring_parents, 2, 4, 9))
        return 1;
    last = length;
    if (!append(fork, fork_parents, 4, 9, 4))
        return 1;
    show("at cost 0", planner_building(file, length, 0));
    show("at cost 1", planner_building(file, length, 1));
    file[last] += 1; /* the last record's length */
    show("with a length that is one too large", planner_building(file, length, 0));
    return 0;
}
