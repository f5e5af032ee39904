/* The planner's thirteen calls. A call returns for every content of what it is lent; a refusal changes nothing. The
 * caller sees to the memory, in each call:
 *   - A length is 64 bits on every machine. It counts bytes of a record, a text, a file or a plan record, words of a
 *     plan, rows of a board, entries of a list.
 *   - Each pointer is not NULL and valid for its length.
 *   - The words, the rows, the lists and the memory that the answer is returned in are aligned to 8 bytes. Compilers for
 *     32-bit x86 align uint64_t to 4 unless told otherwise (gcc and clang: -malign-double). A record, a text, a file or
 *     a plan record may begin at any byte, and so may the bytes for one that is written.
 *   - Nothing that is lent overlaps: record, words and board are apart, so are the two lists and the bytes, so are the
 *     given record, the text or the words and the bytes, so are record, plan record and words, and the returned answer is
 *     apart from them.
 *   - No other thread uses what is lent meanwhile. */
#ifndef PLANNER_H
#define PLANNER_H

#include <stddef.h>
#include <stdint.h>

/* Goes up with each release that changes a call's parameters or a struct's fields. Version 1 had no such number. */
#define PLANNER_VERSION 5

/* The most words that a plan has; a smaller buffer is refused by 16. */
#define PLANNER_WORDS 387

/* The most bytes that a record has: into so many, every record can be written. */
#define PLANNER_RECORD_BYTES 4361

/* The most bytes that a plan record has: into so many, every plan can be written. */
#define PLANNER_PLAN_BYTES 3476

/* The rows of a board; a board of another length is refused by 17. */
#define PLANNER_ROWS 16

/* The most bytes that a building's file may have; a longer one is refused by 27. */
#define PLANNER_FILE_BYTES 1048576

/* The refusal numbers are below this. */
#define PLANNER_NUMBERS 29

/* What a call answers. refusal 0: accepted, and value holds what the call returns. Otherwise refusal is the number of
 * the rule that was broken, value 0, and place where it was met: a byte of the record (for 1 the record's length), of
 * the text (for 22 also the text's length; for 4 and 5, which are none of the text's numbers, 0), of the file or of the
 * plan record, for 10 the smallest node that waits for itself, for 19 the length of the bytes (0 where two lists
 * differ), for 24 also the word that holds a count (0 where the plan is of another task), for 25 the number of the
 * plan's rule, and 0 for 11 to 17, 20, 21 and 26 to 28. ring (since version 2) is for 10 the set of nodes of one loop
 * through that node, node k as bit k, from which none can be left out; with every other answer it is 0.
 * Refusals: 1 the record ends too early; 2 a number's fourth byte, in a plan record its ninth, has its top bit set; 3
 * the edition is neither 1 nor 2; 4 id, 5 period, 6 node count, 7 execution (from 1 in edition 1, from 0 in edition 2)
 * out of range; 8 a parent count or parent out of range or order, in a text one given twice; 9 bytes follow the record;
 * 10 a node waits for itself, over others or not; 11 the path is longer than the period; 12 the id stands already; 13 no
 * row is free; 14 no task with this id stands; 15 no such number of cores; 16 too few words; 17 the board isn't sound;
 * 18 a number isn't in its shortest form; 19 two lists differ in length, or too few bytes; 20 with the task the verdict
 * would be no; 21 all executions are 0; 22 the text breaks the layout; 23 the text's count is above 62; 24 a plan's
 * count of segments or nodes is 0 or above 64, or the plan is of another task; 25 a plan breaks a rule; 26 the cost is
 * above 255; 27 the file is too long; 28 an id or a word of a plan is 2^63 or more. */
struct planner_answer {
    uint64_t refusal;
    uint64_t place;
    uint64_t value;
    uint64_t ring;
};

/* One row of the board. A free row is all zeros: a board of 16 such rows is empty. sum and largest are the total and
 * the largest of the task's node densities at the cost it came in with, in millionths. longest, shortest and over
 * (since version 4) are, at that cost, its longest execution, its smallest deadline numerator and its Q; nodes with
 * execution 0 do not count in them. A board of before version 4 has to be made anew from the records. Only the calls
 * below should write rows. */
struct planner_row {
    uint64_t id;
    uint64_t nodes;
    uint64_t sum;
    uint64_t largest;
    uint64_t longest;
    uint64_t shortest;
    uint64_t over;
};

/* What planner_mend answers: an answer, and three counts over the given record, all 0 beside a refusal. padded: numbers
 * that are not in their shortest form, those of dropped parents included. reordered: lists of parents that do not
 * ascend, repeats after the first left out. dropped: parents that repeat an earlier one of their list. */
struct planner_mending {
    struct planner_answer answer;
    uint64_t padded;
    uint64_t reordered;
    uint64_t dropped;
};

/* What planner_building answers: an answer, and what was counted of the file's records before the walk ended; on 26 and
 * 27 all counts are 0. records: how many there are; accepted: how many of them are planned; refused[k]: how many of them
 * planning refuses by k (1 to 11, 18 and 21 occur). The others count accepted records alone. nodes: their nodes, those
 * with execution 0 too; segments, and of these heavy and light; work: their executions, with the cost; dense: tasks with
 * a node whose density is above 1,000,000. */
struct planner_counts {
    struct planner_answer answer;
    uint64_t records;
    uint64_t accepted;
    uint64_t refused[PLANNER_NUMBERS];
    uint64_t nodes;
    uint64_t segments;
    uint64_t work;
    uint64_t heavy;
    uint64_t light;
    uint64_t dense;
};

/* Plans the task of a record into words[0 .. 3 + 3s + 3n - 1]; words past these keep their content.
 *   words[0] Q, words[1] the segment count s, words[2] the node count n,
 *   then s times (threads, length, deadline numerator), then n times (offset numerator, deadline numerator, density).
 * Offsets and deadlines are in time units times Q; densities are in millionths, rounded up. A node with execution 0 runs
 * in no segment: it has deadline 0 and density 0.
 * cost (since version 3), 0 .. 255 time units, is what the switch at each step's start takes: an execution above 0 is the
 * record's number plus the cost, from the path to the densities. An execution of 0 stays 0.
 * value: the number of words written. Refusals, in this order: 26; 16; 1 to 9 and 18 as met from the left; 21; 10; 11. */
struct planner_answer planner_plan(const uint8_t *record, uint64_t record_length,
                                   uint64_t *words, uint64_t words_length, uint64_t cost);

/* Since version 5 (before, this was planner_admit): plans the task as planner_plan does, at that cost, and enters it in
 * the lowest free row of the board, whatever the verdict is then; for trying out at the desk. value: the row filled,
 * 0 .. 15. Refusals: 26; 16; 17; 1 to 9 and 18 as met from the left; 21; 10; 11; 12 (the id stands already); 13 (no row
 * is free). */
struct planner_answer planner_note(const uint8_t *record, uint64_t record_length,
                                   uint64_t *words, uint64_t words_length,
                                   struct planner_row *board, uint64_t board_length, uint64_t cost);

/* As planner_note, but it turns away what would not fit (cores and 20 since version 5): a task with which planner_ask
 * for that many cores (1 .. 64) would answer no, also where it did so before. Where an empty board is filled by this
 * call alone, for one number of cores, planner_ask for that number answers yes at any time, also after withdrawals.
 * Refusals: 26; 16; 17; 15 (0 cores, or more than 64); 1 to 9 and 18 as met from the left; 21; 10; 11; 12; 13; 20. */
struct planner_answer planner_admit(const uint8_t *record, uint64_t record_length,
                                    uint64_t *words, uint64_t words_length,
                                    struct planner_row *board, uint64_t board_length, uint64_t cores, uint64_t cost);

/* Frees the row of the task with this id. value: the row freed. Refusals: 17; 14 (no such task; id 0 never stands). */
struct planner_answer planner_withdraw(struct planner_row *board, uint64_t board_length, uint64_t id);

/* Whether the standing tasks pass the density test on this number of cores (1 .. 64), where a step may be interrupted.
 * value: 1 for yes, 0 for no. Writes nothing. Refusals: 17; 15 (0 cores, or more than 64). */
struct planner_answer planner_ask(const struct planner_row *board, uint64_t board_length, uint64_t cores);

/* Since version 4: the same where a step that has begun runs to its end, as a door drive's does. It is a yes for fewer
 * boards: each core is also charged the longest execution over the shortest deadline, in millionths rounded up, of all
 * nodes that stand. Values and refusals as planner_ask. */
struct planner_answer planner_ask_to_end(const struct planner_row *board, uint64_t board_length, uint64_t cores);

/* Writes the record of a task into bytes[0 .. value - 1]; bytes past these keep their content. Both lists have an entry
 * for each node: executions its execution, parents the set of nodes that it waits for, node k as bit k. What is written
 * is read back as the same task, and a record that was read is written again byte for byte.
 * value: the number of bytes written. Refusals, in this order: 19 at 0 (the lists differ in length); as the record would
 * meet its numbers from the left, each at the byte where that number would have stood, 3, 4, 5, 6 (lists of 0 entries, or
 * of more than 64), then for each node 7, 8 at its parent count (more parents than there are nodes) and 8 at its first
 * parent that is no node; 21; 19 at bytes_length (too few bytes). Loops and long paths are left to planning. */
struct planner_answer planner_write_record(const uint64_t *executions, uint64_t executions_length,
                                           const uint64_t *parents, uint64_t parents_length,
                                           uint8_t *bytes, uint64_t bytes_length,
                                           uint64_t edition, uint64_t id, uint64_t period);

/* Mends a record that a sloppy editor wrote: writes it into bytes[0 .. value - 1] as it should be; bytes past these keep
 * their content. In the given record a number may be in any form of up to four bytes (3 is 03, and 83 00 or 83 80 80 00
 * as well), and the parents of a node may stand in any order, some more than once, up to 255 in a list. What is written
 * has each number in its shortest form, and each node's parents ascending and once; nothing else is changed. A record
 * that planner_plan can read comes back equal with three zeros, so mending again changes nothing. given and bytes do
 * not overlap. A buffer of PLANNER_RECORD_BYTES is never too short.
 * value: the number of bytes written. Refusals, in this order: as met from the left, each number read whole before its
 * range is tried, 1 to 7, 8 at a parent count above 255, 8 at a parent that is no node, and 9; 21; 19 at bytes_length
 * (too few bytes). There is no 18. Loops and long paths are left to planning. */
struct planner_mending planner_mend(const uint8_t *given, uint64_t given_length,
                                    uint8_t *bytes, uint64_t bytes_length);

/* Reads a Standard Task Graph text and writes its task's record, of edition 2 with that id and period, into
 * bytes[0 .. value - 1]; bytes past these keep their content. The text is words of decimal digits, any count of them,
 * zeros in front allowed, parted by spaces and line ends (10, 13) alike and by nothing else: a count of tasks, which
 * leaves out one dummy entry and one dummy exit, and then for each of the count + 2 its number (0, 1, .. upward), its
 * time, how many predecessors it has, and these in any order, each once. After the last one the text ends, or a word
 * that starts with # ends the reading, whatever follows. Each is the node of its number, dummies too, and these need
 * neither take 0 nor be the entry and the exit. How words are parted and zeros in front change nothing that is written.
 * text and bytes do not overlap. A buffer of PLANNER_RECORD_BYTES is never too short.
 * value: the number of bytes written. Refusals, in this order: 4 and 5 at 0 (id and period); as met from the left, each
 * word read whole before its range is tried and refused at its first byte, 22 (a word that is not all digits; another
 * task number than the next one; after the last one a word that does not start with #; at text_length where the text
 * stops short), 23 (a count above 62), 7 (a time above 65,535), 8 (a number of predecessors above count + 2, a
 * predecessor that is none of the numbers, or one given twice); 21; 19 at bytes_length (too few bytes). Loops and long
 * paths are left to planning. */
struct planner_answer planner_read_graph(const uint8_t *text, uint64_t text_length,
                                         uint8_t *bytes, uint64_t bytes_length,
                                         uint64_t id, uint64_t period);

/* Counts what a whole building's file holds. A file is records one after another, each preceded by its length in bytes
 * as a number like a record's (1 to 4 bytes, shortest form). Each record is planned alone, as planner_plan does at that
 * cost, in words of the call's own: ids are not compared. A length of 0 is a record of no bytes, which is refused by 1.
 * The walk ends at a length that is damaged and at a record that runs past the file's end; that record is not counted.
 * value: the number of records. Refusals, in this order: 26; 27; then what ended the walk: 1, 2 or 18 at the first byte
 * of the length (1 where the file ends inside it), or 1 at file_length (the record runs past it). Beside 1, 2 and 18 the
 * counts cover the records before that place. */
struct planner_counts planner_building(const uint8_t *file, uint64_t file_length, uint64_t cost);

/* A plan record is a plan on its way between two tools: numbers like a record's, but of up to nine bytes, shortest form:
 * the task's id, Q, the segment count s and s times (threads, length, deadline numerator), the node count n and n times
 * (offset numerator, deadline numerator, density), as planner_plan has them in its words. Nothing follows.
 *
 * Reads a plan record into words[0 .. 3 + 3s + 3n - 1] as planner_plan fills them; words past these keep their content.
 * Whether it is a plan of any task is left to planner_judge: the counts are 1 .. 64, the other numbers any.
 * value: the id. Refusals, in this order: 16 (fewer than PLANNER_WORDS words); as met from the left, each number read
 * whole before its range is tried, 1 at plan_length, 2 (a ninth byte with its top bit set), 18 and 24 (a count) at the
 * number's first byte, and 9. */
struct planner_answer planner_read_plan(const uint8_t *plan, uint64_t plan_length,
                                        uint64_t *words, uint64_t words_length);

/* Writes the plan record of the plan in these words, under that id, into bytes[0 .. value - 1]; bytes past these keep
 * their content. words is what planner_plan was lent, PLANNER_WORDS long: those past the plan's may hold anything. What
 * is written is read back as the same id and words, and a plan record that was read is written again byte for byte. A
 * buffer of PLANNER_PLAN_BYTES is never too short.
 * value: the number of bytes written. Refusals, in this order: 16 (fewer than PLANNER_WORDS words); 24 at 1 (the segment
 * count, words[1], is 0 or above 64) and at 2 (the node count, words[2]); 28 (the id, or a word that would be written, is
 * 2^63 or more); 19 at bytes_length (too few bytes). */
struct planner_answer planner_write_plan(const uint64_t *words, uint64_t words_length,
                                         uint8_t *bytes, uint64_t bytes_length, uint64_t id);

/* Judges another tool's plan for the task of a record, each step at that cost, as planner_plan takes it. Where it is
 * accepted, its words are written as planner_read_plan does; else no word is. A plan of planner_plan for the same record
 * and cost, written by planner_write_plan, is always accepted. The rules, with m, e and d the threads, length and
 * deadline numerator of a segment, T the period, C the work:
 *   1  Q is 1 .. 8,421,120;
 *   2  the segments are the task's own, in number, threads and length;
 *   3  the d of all segments sum to T x Q;
 *   4  a node's deadline numerator is the sum of d over the segments it runs in (0 for a node with execution 0);
 *   5  a node's offset is 0 without parents, else the greatest offset plus deadline among its parents;
 *   6  no node has less than half its execution: execution x Q is at most twice its deadline numerator;
 *   7  no segment is denser than twice C over T: m x e x Q x T is at most 2 x C x d;
 *   8  a density is execution x Q x 1,000,000 over the deadline numerator, rounded up (0 for a deadline of 0).
 * value: the id. Refusals, in this order: 26; those of the record, 1 to 9 and 18 as met from the left, 21, 10, 11; 16;
 * those of the plan record, 1, 2, 18, 24 and 9 as met from the left; 24 at 0 (id or node count is not the task's); 25,
 * the place is the number of the first broken rule. The answer does not tell in which of the two records a place is. */
struct planner_answer planner_judge(const uint8_t *record, uint64_t record_length,
                                    const uint8_t *plan, uint64_t plan_length,
                                    uint64_t *words, uint64_t words_length, uint64_t cost);

#endif
