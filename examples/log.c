/* List b's tables of document 01, appended from C to a log that has an earlier plan; the power cuts off the last byte, and
   they are appended again. What it prints is compared with examples/log.txt. */
#include <inttypes.h>
#include <stdio.h>
#include <stdlib.h>
#include <string.h>

#include "sholakpite.h"

#define LENGTH(array) (sizeof(array) / sizeof((array)[0]))

/* What stands where nothing was written. */
#define UNWRITTEN 99

/* A buffer, and how many of its bytes are the log. */
struct log {
    uint8_t bytes[300];
    uint64_t used;
};

struct plan {
    uint8_t startup[8], cycle[8];
    uint64_t lengths[SHOLAKPITE_LENGTHS];
};

static void append(struct log *log, const struct plan *plan) {
    uint64_t answered = sholakpite_append(log->bytes, LENGTH(log->bytes), log->used, plan->startup, plan->lengths[0],
                                          plan->cycle, plan->lengths[1]);
    if (answered == SHOLAKPITE_NOT_APPENDED) {
        printf("not appended\n");
        exit(1);
    }
    log->used = answered;
}

static struct plan newest(const struct log *log) {
    struct plan p;
    memset(&p, UNWRITTEN, sizeof p);
    uint64_t code = sholakpite_read(log->bytes, log->used, p.startup, LENGTH(p.startup), p.cycle, LENGTH(p.cycle),
                                    p.lengths, LENGTH(p.lengths));
    if (code != 0) {
        printf("no plan is handed over: %" PRIu64 "\n", code);
        exit(1);
    }
    return p;
}

static void print_part(const char *name, const uint8_t *part, uint64_t length) {
    printf("%s", name);
    for (uint64_t entry = 0; entry < length; entry++)
        printf(" %d", part[entry]);
    printf("\n");
}

static void print_newest(const char *when, const struct log *log) {
    const struct plan p = newest(log);
    printf("%s: %" PRIu64 " bytes\n", when, log->used);
    print_part("startup", p.startup, p.lengths[0]);
    print_part("cycle", p.cycle, p.lengths[1]);
}

int main(void) {
    const struct plan earlier = {{SHOLAKPITE_IDLE, 0, SHOLAKPITE_IDLE}, {0, SHOLAKPITE_IDLE}, {3, 2}};
    const struct plan list_b = {{0, 1, 0, SHOLAKPITE_IDLE, 0}, {1, 0, SHOLAKPITE_IDLE, 0}, {5, 4}};
    struct log log = {.used = 0};
    memset(log.bytes, UNWRITTEN, sizeof log.bytes);
    append(&log, &earlier);
    append(&log, &list_b);
    print_newest("appended", &log);

    const struct log whole = log;
    log.used--;
    log.bytes[log.used] = UNWRITTEN;
    print_newest("cut", &log);

    append(&log, &list_b);
    print_newest("appended again", &log);
    if (memcmp(log.bytes, whole.bytes, sizeof log.bytes) != 0) {
        printf("the log is not as before the cut\n");
        return 1;
    }
    return 0;
}
