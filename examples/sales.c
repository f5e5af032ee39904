/* The worked example of docs/SALES.md: three tasks on a board, and what each promise comes to there. */
#include <inttypes.h>
#include <stdio.h>
#include <string.h>

#include "planner.h"

/* Edition, id, period, number of nodes; then for each node its execution, how many parents it has, and these. */
static const uint8_t calls[] = {0x01, 0x01, 0x28, 0x02, 0x02, 0x00, 0x03, 0x01, 0x00};
static const uint8_t panel[] = {0x01, 0x02, 0x14, 0x01, 0x06, 0x00};
static const uint8_t doors[] = {0x01, 0x03, 0x64, 0x03, 0x09, 0x00, 0x09, 0x00, 0x06, 0x02, 0x00, 0x01};
/* four.task: its first step has half the time that it runs. */
static const uint8_t four[] = {0x01, 0x09, 0x04, 0x04, 0x02, 0x00, 0x01, 0x01, 0x00,
                               0x01, 0x01, 0x00, 0x01, 0x01, 0x00};

static struct planner_row board[PLANNER_ROWS];

static void note(const uint8_t *record, uint64_t length, uint64_t cost)
{
    uint64_t words[PLANNER_WORDS];
    struct planner_answer a = planner_note(record, length, words, PLANNER_WORDS, board, PLANNER_ROWS, cost);

    if (a.refusal != 0)
        printf("refused %" PRIu64 " at %" PRIu64 "\n", a.refusal, a.place);
}

static void note_all(uint64_t cost)
{
    memset(board, 0, sizeof board);
    note(calls, sizeof calls, cost);
    note(panel, sizeof panel, cost);
    note(doors, sizeof doors, cost);
}

typedef struct planner_answer ask_for(const struct planner_row *, uint64_t, uint64_t);

/* The counts that get a yes. Each is asked for, and a no above a yes would be told. */
static void show_counts(ask_for *ask)
{
    uint64_t first = 65, yeses = 0;

    for (uint64_t cores = 64; cores >= 1; cores--) {
        if (ask(board, PLANNER_ROWS, cores).value == 0)
            continue;
        first = cores;
        yeses++;
    }
    if (yeses == 0)
        printf("no count");
    else
        printf("%" PRIu64 " to 64%s", first, yeses == 65 - first ? "" : ", not all of them");
}

static void show(const char *what)
{
    printf("%s: yes for ", what);
    show_counts(planner_ask);
    printf("; to the end, for ");
    show_counts(planner_ask_to_end);
    printf("\n");
}

static void show_rows(void)
{
    for (unsigned row = 0; row < 3; row++)
        printf("row %u: task %" PRIu64 ", sum %" PRIu64 ", largest %" PRIu64 ", longest %" PRIu64 ", shortest %" PRIu64
               " over %" PRIu64 "\n", row, board[row].id, board[row].sum, board[row].largest, board[row].longest,
               board[row].shortest, board[row].over);
}

/* Both verdicts for 0 to 65 cores, 0 and 65 refused. */
static void ask_all(struct planner_answer answers[132])
{
    for (uint64_t cores = 0; cores <= 65; cores++) {
        answers[2 * cores] = planner_ask(board, PLANNER_ROWS, cores);
        answers[2 * cores + 1] = planner_ask_to_end(board, PLANNER_ROWS, cores);
    }
}

/* The three after another list of calls, in other rows. */
static void show_same_tasks(void)
{
    struct planner_answer one[132], other[132];

    note_all(0);
    ask_all(one);
    memset(board, 0, sizeof board);
    note(four, sizeof four, 0);
    note(doors, sizeof doors, 0);
    planner_withdraw(board, PLANNER_ROWS, 9);
    note(panel, sizeof panel, 0);
    note(calls, sizeof calls, 0);
    show_rows();
    ask_all(other);
    printf("answers for 0 to 65 cores: %s the same\n", memcmp(one, other, sizeof one) == 0 ? "all" : "not all");
}

int main(void)
{
    show("empty board");
    note_all(0);
    show_rows();
    show("three tasks");
    planner_withdraw(board, PLANNER_ROWS, 3);
    show("without the doors");
    show_same_tasks();
    note(four, sizeof four, 0);
    show("with a step that has half its running time");
    note_all(1);
    show("the three at a cost of 1");
    return 0;
}
