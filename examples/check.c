/* List b of document 01, checked from C by both entries. What it prints is compared with examples/list-b.txt. */
#include <inttypes.h>
#include <stdio.h>
#include <string.h>

#include "sholakpite.h"

#define LENGTH(array) (sizeof(array) / sizeof((array)[0]))

/* What one call leaves behind. */
struct outcome {
    uint64_t code, row[SHOLAKPITE_ROW];
    uint8_t startup[16], cycle[16];
};

static struct outcome by_words(void) {
    const uint64_t list[] = {0, 2, 4, 4, 1, 1, 2, 4};
    struct outcome o;
    memset(&o, 99, sizeof o);
    o.code = sholakpite_check(SHOLAKPITE_EARLIEST_DEADLINE_FIRST, list, LENGTH(list), o.startup, LENGTH(o.startup),
                              o.cycle, LENGTH(o.cycle), o.row, LENGTH(o.row));
    return o;
}

static struct outcome by_tasks(void) {
    const struct sholakpite_task list[] = {
        {.offset = 0, .run = 2, .deadline = 4, .period = 4},
        {.offset = 1, .run = 1, .deadline = 2, .period = 4},
    };
    struct outcome o;
    memset(&o, 99, sizeof o);
    o.code = sholakpite_check_tasks(SHOLAKPITE_EARLIEST_DEADLINE_FIRST, list, LENGTH(list), o.startup,
                                    LENGTH(o.startup), o.cycle, LENGTH(o.cycle), o.row, LENGTH(o.row));
    return o;
}

static void print_table(const char *name, const uint8_t *table, uint64_t length) {
    printf("%s", name);
    for (uint64_t slot = 0; slot < length; slot++) {
        if (table[slot] == SHOLAKPITE_IDLE)
            printf(" -");
        else
            printf(" %d", table[slot]);
    }
    printf("\n");
}

int main(void) {
    const struct outcome o = by_words(), same = by_tasks();
    if (memcmp(&o, &same, sizeof o) != 0) {
        printf("the two entries differ\n");
        return 1;
    }
    if (o.code != SHOLAKPITE_FEASIBLE) {
        printf("not feasible: %" PRIu64 "\n", o.code);
        return 1;
    }
    uint64_t latest = o.row[0], hyperperiod = o.row[1];
    printf("feasible M %" PRIu64 " H %" PRIu64 " L %" PRIu64 "\n", latest, hyperperiod, o.row[2]);
    print_table("startup", o.startup, latest + hyperperiod);
    print_table("cycle", o.cycle, hyperperiod);
    printf("idle %" PRIu64 " %" PRIu64 "\n", o.row[3], o.row[4]);
    printf("preemptions %" PRIu64 " %" PRIu64 "\n", o.row[5], o.row[6]);
    return 0;
}
