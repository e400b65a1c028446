/* The tables that fields.c tries every call by, and how it looks at an answer. */
#include <stdio.h>
#include <string.h>

#include "skvorzhan.h"

#define EDITION 4660

static const skv_numbers numbers = {{EDITION, 16, 4, 5, 11, 12, 28, 41, 6, 155, 13, 10, 7, 14, 3, 50}};
static const uint8_t table[32] = {0x34, 0x12, 16, 0, 4,  0, 5,  0, 11, 0, 12, 0, 28, 0, 41, 0,
                                  6,    0,    155, 0, 13, 0, 10, 0, 7,  0, 14, 0, 3,  0, 50, 0};

/* The same in five groups, with long CCD 8, long RRD 9, long WTR 15. */
static const skv_group_numbers group_numbers = {{EDITION, 16, 4, 5, 11, 12, 28, 41, 6, 155, 13, 10, 7, 14, 3, 50, 5, 8, 9, 15}};
static const uint8_t group_table[40] = {0x34, 0x12, 16,  0, 4,  0, 5,  0, 11, 0, 12, 0, 28, 0, 41, 0, 6, 0, 155, 0,
                                        13,   0,    10,  0, 7,  0, 14, 0, 3,  0, 50, 0, 5,  0, 8,  0, 9, 0, 15,  0};

static int wrong;

static void must(int holds, const char *file, int line, const char *what) {
    if (holds) return;
    fprintf(stderr, "%s, line %d: not so: %s\n", file, line, what);
    wrong = 1;
}

#define MUST(holds) must(holds, __FILE__, __LINE__, #holds)

static int same(const void *a, const void *b, size_t n) { return memcmp(a, b, n) == 0; }

static int is(skv_answer a, uint32_t refused, uint32_t position, uint32_t edition, uint32_t count, uint32_t cycles) {
    return a.refused == refused && a.position == position && a.edition == edition && a.count == count && a.cycles == cycles;
}

static int says(skv_verdict_answer a, uint32_t refused, uint32_t position, uint32_t edition, uint32_t rule, uint32_t copy, uint32_t record) {
    return a.refused == refused && a.position == position && a.edition == edition && a.rule == rule && a.copy == copy && a.record == record;
}

static int finds(skv_capture_answer a, uint32_t refused, uint32_t position, uint32_t edition, uint32_t count, uint32_t rule, uint32_t record) {
    return a.refused == refused && a.position == position && a.edition == edition && a.count == count && a.rule == rule && a.record == record;
}

static int tells(skv_serves_answer a, uint32_t refused, uint32_t position, uint32_t edition, uint32_t serves, uint32_t rule, uint32_t record,
                 uint32_t transaction) {
    return a.refused == refused && a.position == position && a.edition == edition && a.serves == serves && a.rule == rule && a.record == record &&
           a.transaction == transaction;
}

static int gives(skv_pattern_answer a, uint32_t refused, uint32_t position, uint32_t edition, uint32_t length, uint32_t count) {
    return a.refused == refused && a.position == position && a.edition == edition && a.length == length && a.count == count;
}

static void put(uint8_t *out, uint32_t cycle, uint8_t kind, uint8_t bank, uint16_t number) {
    const uint8_t bytes[8] = {(uint8_t)cycle, (uint8_t)(cycle >> 8), (uint8_t)(cycle >> 16), (uint8_t)(cycle >> 24),
                              kind,           bank,                  (uint8_t)number,        (uint8_t)(number >> 8)};
    memcpy(out, bytes, 8);
}

/* By each call, of the lent list and of its bytes. */
static void asked(const skv_transaction *list, size_t n, const uint8_t *schedule, size_t size, uint32_t serves, uint32_t rule, uint32_t record,
                  uint32_t transaction) {
    uint8_t four[12], eight[24];
    for (size_t k = 0; k < n; k++) {
        MUST(skv_write_later(list[k].kind, list[k].start, list[k].bi, list[k].bc, list[k].arrival, eight + 8 * k, 8).refused == 0);
        memcpy(four + 4 * k, eight + 8 * k, 4);
    }
    MUST(tells(skv_serves(EDITION, table, 32, list, n, schedule, size), 0, 0, EDITION, serves, rule, record, transaction));
    MUST(tells(skv_serves_bytes(EDITION, table, 32, four, 4 * n, schedule, size), 0, 0, EDITION, serves, rule, record, transaction));
    MUST(tells(skv_serves_later_bytes(EDITION, table, 32, eight, 8 * n, schedule, size), 0, 0, EDITION, serves, rule, record, transaction));
    MUST(tells(skv_serves(EDITION, table, 32, list, n, schedule, size + 1), 7, 0, EDITION, 0, 0, 0, 0));
    MUST(tells(skv_serves_bytes(EDITION, table, 32, four, 4 * n + 1, schedule, size), 3, 0, EDITION, 0, 0, 0, 0));
    MUST(tells(skv_serves_later_bytes(EDITION, table, 32, eight, 8 * n + 4, schedule, size), 3, 0, EDITION, 0, 0, 0, 0));
    MUST(tells(skv_serves(1, table, 32, list, n, schedule, size), 10, EDITION, EDITION, 0, 0, 0, 0));
    MUST(tells(skv_serves_bytes(1, table, 32, four, 4 * n, schedule, size), 10, EDITION, EDITION, 0, 0, 0, 0));
    MUST(tells(skv_serves_later_bytes(1, table, 32, eight, 8 * n, schedule, size), 10, EDITION, EDITION, 0, 0, 0, 0));
}
