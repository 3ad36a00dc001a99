/*
 * Sholakpite: whether a list of periodic tasks ever misses a deadline on one core, its slot tables, and a log of plans
 * that survives a power cut.
 *
 * The functions behind this header are written in Rattle and proved to meet their promises
 * (crates/words/specs/Words.antt, crates/sholakpite/specs/Texts.antt and Logs.antt). This header is not: it is assumed to
 * match.
 */
#ifndef SHOLAKPITE_H
#define SHOLAKPITE_H

#include <stddef.h>
#include <stdint.h>

#ifdef __cplusplus
extern "C" {
#endif

/* Who gets the slot: by task number, by the shorter period, by the shorter deadline, or by the earlier instant due and then
   the earlier release. What is still equal goes to the lower task number. */
#define SHOLAKPITE_LIST_ORDER 0
#define SHOLAKPITE_RATE_MONOTONIC 1
#define SHOLAKPITE_DEADLINE_MONOTONIC 2
#define SHOLAKPITE_EARLIEST_DEADLINE_FIRST 3

/* The card that a list is for. A wide card's timer has every period that a task may have, a small card's only twenty. */
#define SHOLAKPITE_WIDE 0
#define SHOLAKPITE_SMALL 1

/* What is answered, and the words of `row` that are then written, from row[0] on. */
#define SHOLAKPITE_FEASIBLE 0   /* M, H, L, idle startup, idle cycle, preemptions startup, preemptions cycle */
#define SHOLAKPITE_MISSED 1     /* task, instant */
#define SHOLAKPITE_OVERLOADED 2 /* L, H */
#define SHOLAKPITE_REFUSED 3    /* number, task */
#define SHOLAKPITE_NOT_UNDERSTOOD 4

/* The words that `row` needs at least, and the words of one task in `list`. */
#define SHOLAKPITE_ROW 8
#define SHOLAKPITE_TASK 4

/* A table entry of an idle slot; any other is a task number. */
#define SHOLAKPITE_IDLE 255

/* Job k is released at offset + k * period, needs run slots, and is due deadline slots after its release. */
struct sholakpite_task {
    uint64_t offset, run, deadline, period;
};

/*
 * Checks a list for a wide card under a policy.
 *
 * list     O C D T for each task: offset, run time, deadline, period; list_len counts words. It is only read.
 * startup  needs M + H entries, where M is the largest offset and H the least common multiple of the periods: 32,768 are
 *          always enough. cycle needs H: 16,384 are always enough. Both may be longer.
 * row      gets the answer's values; words that are not named above keep their values.
 *
 * Feasible: no deadline is ever missed. startup has slots 0 to M + H - 1, and cycle the H slots after them, which repeat
 * for ever. Missed: the first miss is at an instant d. startup has the slots below d and below M + H, and cycle those
 * from M + H to d - 1. Entries that are not named keep their bytes; where a list is overloaded or refused, all do.
 *
 * Refused, by the first line that applies; the five lines from 2 to 5 are gone through task by task:
 *   1, task 0   no task, or more than 16
 *   2, task i   T is 0 or above 16,384
 *   9, task i   the card is small (see sholakpite_check_card), and T is none of 1, 2, 3, 4, 5, 6, 8, 10, 12, 15, 16, 20, 24,
 *               30, 40, 48, 60, 80, 120, 240
 *   3, task i   C is 0 or above D
 *   4, task i   D is above T
 *   5, task i   O is above 16,384
 *   6, task 0   H is above 16,384
 *   7, task 0   startup is shorter than M + H
 *   8, task 0   cycle is shorter than H
 *
 * Not understood, with nothing written, exactly when policy is above 3, list_len is not a multiple of 4, or row_len is
 * below 8.
 *
 * No pointer may be NULL, not even for a length of 0, all memory that is lent has been written before, and the four
 * regions do not overlap.
 */
uint64_t sholakpite_check(uint64_t policy, const uint64_t *list, size_t list_len, uint8_t *startup, size_t startup_len,
                          uint8_t *cycle, size_t cycle_len, uint64_t *row, size_t row_len);

/* The same for a list of task structs; list_len counts tasks, so only the policy and row can be misunderstood. */
uint64_t sholakpite_check_tasks(uint64_t policy, const struct sholakpite_task *list, size_t list_len, uint8_t *startup,
                                size_t startup_len, uint8_t *cycle, size_t cycle_len, uint64_t *row, size_t row_len);

/* The same two for a list that names its card: the card's number stands in front, and above 1 it is not understood. For a
   wide card they answer as those above. */
uint64_t sholakpite_check_card(uint64_t card, uint64_t policy, const uint64_t *list, size_t list_len, uint8_t *startup,
                               size_t startup_len, uint8_t *cycle, size_t cycle_len, uint64_t *row, size_t row_len);
uint64_t sholakpite_check_tasks_card(uint64_t card, uint64_t policy, const struct sholakpite_task *list, size_t list_len,
                                     uint8_t *startup, size_t startup_len, uint8_t *cycle, size_t cycle_len, uint64_t *row,
                                     size_t row_len);

/* The longest input that is read, and the longest output that there is. */
#define SHOLAKPITE_LONGEST_INPUT 4096
#define SHOLAKPITE_LONGEST_OUTPUT 147547

/*
 * What the program prints for an input: any bytes, of any length. README.md has the format of lists and all lines that can
 * be printed.
 *
 * Answers the output's length, with the output in out and later bytes as they were; or 0, with nothing written, exactly
 * when out is shorter than the output. SHOLAKPITE_LONGEST_OUTPUT bytes are always enough. The output does not end with a
 * byte 0. Pointers and regions as above.
 */
uint64_t sholakpite_answer(const uint8_t *input, size_t input_len, uint8_t *out, size_t out_len);

/* What the writer answers for a list that has no text, or none that fits. No text has this length. */
#define SHOLAKPITE_NOT_WRITTEN 13

/*
 * The text of a policy and a list of words for a wide card, O C D T for each task; reading it gives the same card, policy
 * and list.
 *
 * Answers the text's length, with the text in out and later bytes as they were; or 13, with nothing written, exactly when
 * there are more than 16 tasks, a number is above 999,999 or out is shorter than the text:
 * SHOLAKPITE_LONGEST_INPUT bytes are always enough. Or 4, with nothing written and before that, exactly when policy is
 * above 3 or list_len is not a multiple of 4. Pointers and regions as above.
 */
uint64_t sholakpite_write(uint64_t policy, const uint64_t *list, size_t list_len, uint8_t *out, size_t out_len);

/* The same for a list that names its card: where it is small, a line `card small` stands behind the policy's. 4 also where
   the card is above 1. A period that the card does not have is written all the same; the checker refuses it. */
uint64_t sholakpite_write_card(uint64_t card, uint64_t policy, const uint64_t *list, size_t list_len, uint8_t *out,
                               size_t out_len);

/* The bytes of a block of a log, and the entries that a part of a plan may have in it. */
#define SHOLAKPITE_BLOCK 64
#define SHOLAKPITE_LONGEST_PART 65535

/* The words that `lengths` needs at least. */
#define SHOLAKPITE_LENGTHS 2

/* What sholakpite_read answers where it hands over no plan; SHOLAKPITE_NOT_UNDERSTOOD too. */
#define SHOLAKPITE_NO_PLAN 20
#define SHOLAKPITE_LOG_DAMAGED 21
#define SHOLAKPITE_BUFFER_SHORT 22

/* What sholakpite_append answers where it appends nothing; any other answer is a multiple of 64. */
#define SHOLAKPITE_NOT_APPENDED 23

/*
 * A log of plans, which survives a power cut.
 *
 * The log is blocks of 64 bytes. A plan is blocks whose first byte is 1 and whose other 63 bytes carry the startup entries,
 * then the cycle entries, the rest 0. After them comes a trailer block: first byte 2, then three 16-bit numbers, low byte
 * first: how many plan blocks to go back, startup length, cycle length; the rest is 0. A plan of no entries is a trailer
 * alone, and the longest plan takes 133,248 bytes with its trailer.
 *
 * Power may fail after any byte; what is left is the bytes written so far. Whichever byte that is, what is left reads as
 * before the append, until the last new byte is written; from then on it reads as the new plan. So the new bytes have to
 * reach the card in order, from the first to the last.
 */

/*
 * Appends a plan to the log that the first `used` bytes of log are; used above log_len means all of them.
 *
 * First the log is cut back to just after its last trailer, which is the last whole block whose first byte is 2, or to
 * nothing where there is none. What the power left of an unfinished plan is written over from there.
 *
 * Answers how many bytes are used then: the new ones are the last 64 * ((startup_len + cycle_len + 62) / 63 + 1) of them,
 * and all other bytes of log stay. Or 23, with nothing written, exactly when plan and trailer don't fit the room left from
 * the cut to log_len, or startup_len or cycle_len is above 65,535. Pointers and regions as above.
 */
uint64_t sholakpite_append(uint8_t *log, size_t log_len, uint64_t used, const uint8_t *startup, size_t startup_len,
                           const uint8_t *cycle, size_t cycle_len);

/*
 * Reads the newest plan that was fully written. log_len counts the used bytes alone.
 *
 * A part block at the end is dropped, and blocks are stepped back over to the last trailer. Answers 0, with the plan's parts
 * in startup and cycle and their lengths in lengths[0] and lengths[1]; or
 *   20  there is no trailer
 *   21  the last trailer's block count isn't the two lengths' sum divided by 63, rounded up, or points before the start, or
 *       covers a block of another kind or a nonzero byte past the entries, or the trailer's rest isn't 0
 *   22  none of these, and startup or cycle is shorter than its part
 *
 * Or 4, looked at first, when lengths_len is below 2. Where the answer is not 0 nothing is written. Bytes past a part, and
 * words of lengths past the second, stay. Pointers and regions as above.
 */
uint64_t sholakpite_read(const uint8_t *log, size_t log_len, uint8_t *startup, size_t startup_len, uint8_t *cycle,
                         size_t cycle_len, uint64_t *lengths, size_t lengths_len);

#ifdef __cplusplus
}
#endif

#endif
