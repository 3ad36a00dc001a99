/* Lists b and j of document 01, checked from C for either card by both entries, and list b written as text for a small
   card. What it prints is compared with examples/card.txt. */
#include <inttypes.h>
#include <stdio.h>
#include <stdlib.h>
#include <string.h>

#include "sholakpite.h"

#define LENGTH(array) (sizeof(array) / sizeof((array)[0]))

/* Room for the tables of both lists. */
#define ROOM 40

/* What one call leaves behind. */
struct outcome {
    uint64_t code, row[SHOLAKPITE_ROW];
    uint8_t startup[ROOM], cycle[ROOM];
};

static const struct sholakpite_task list_b[] = {
    {.offset = 0, .run = 2, .deadline = 4, .period = 4},
    {.offset = 1, .run = 1, .deadline = 2, .period = 4},
};

static const struct sholakpite_task list_j[] = {
    {.offset = 0, .run = 2, .deadline = 5, .period = 5},
    {.offset = 0, .run = 4, .deadline = 7, .period = 7},
};

/* A task struct is the words of one task. */
static const uint64_t *words(const struct sholakpite_task *list) { return (const uint64_t *)list; }

static struct outcome checked(uint64_t card, const struct sholakpite_task *list, size_t tasks) {
    struct outcome o, same;
    memset(&o, 99, sizeof o);
    same = o;
    o.code = sholakpite_check_card(card, SHOLAKPITE_EARLIEST_DEADLINE_FIRST, words(list), SHOLAKPITE_TASK * tasks,
                                   o.startup, LENGTH(o.startup), o.cycle, LENGTH(o.cycle), o.row, LENGTH(o.row));
    same.code = sholakpite_check_tasks_card(card, SHOLAKPITE_EARLIEST_DEADLINE_FIRST, list, tasks, same.startup,
                                            LENGTH(same.startup), same.cycle, LENGTH(same.cycle), same.row,
                                            LENGTH(same.row));
    if (memcmp(&o, &same, sizeof o) != 0) {
        printf("the two entries differ\n");
        exit(1);
    }
    return o;
}

static void print_answer(const char *name, const struct outcome *o) {
    const uint64_t *row = o->row;
    switch (o->code) {
    case SHOLAKPITE_FEASIBLE:
        printf("%s: feasible M %" PRIu64 " H %" PRIu64 " L %" PRIu64 "\n", name, row[0], row[1], row[2]);
        break;
    case SHOLAKPITE_REFUSED:
        printf("%s: refused %" PRIu64 " task %" PRIu64 "\n", name, row[0], row[1]);
        break;
    default:
        printf("%s: code %" PRIu64 "\n", name, o->code);
    }
}

static void print_on_both(const char *wide, const char *small, const struct sholakpite_task *list, size_t tasks) {
    const struct outcome on_wide = checked(SHOLAKPITE_WIDE, list, tasks), on_small = checked(SHOLAKPITE_SMALL, list, tasks);
    print_answer(wide, &on_wide);
    print_answer(small, &on_small);
}

int main(void) {
    print_on_both("list b, wide card", "list b, small card", list_b, LENGTH(list_b));
    print_on_both("list j, wide card", "list j, small card", list_j, LENGTH(list_j));

    uint8_t text[SHOLAKPITE_LONGEST_INPUT] = {0};
    uint64_t length = sholakpite_write_card(SHOLAKPITE_SMALL, SHOLAKPITE_EARLIEST_DEADLINE_FIRST, words(list_b),
                                            SHOLAKPITE_TASK * LENGTH(list_b), text, LENGTH(text));
    if (length == SHOLAKPITE_NOT_WRITTEN || length == SHOLAKPITE_NOT_UNDERSTOOD) {
        printf("not written: %" PRIu64 "\n", length);
        return 1;
    }
    fwrite(text, 1, length, stdout);
    return 0;
}
