/* Example 3 of document 01: table A, a write and then a read of bank 0. Expects edition 7, builds the schedule, prints its listing, and asks
 * the other calls whether they agree: what is printed is the listing alone, and a call that disagrees ends the program with status 1. */
#include <stdio.h>
#include <string.h>

#include "skvorzhan.h"

static const skv_numbers table_a = {{7, 8, 4, 4, 10, 10, 28, 38, 6, 32, 10, 8, 6, 12, 6, 0}};
static const skv_transaction list[2] = {{1, 0, 1, 1, 0}, {0, 0, 1, 1, 0}};
static const uint8_t list_bytes[8] = {1, 0, 1, 1, 0, 0, 1, 1};
static const uint16_t expected = 7;
static const char *const kinds[6] = {"ACT", "RD", "RDA", "WR", "WRA", "REF"};

static int wrong(const char *call) {
    fprintf(stderr, "%s answers something else\n", call);
    return 1;
}

int main(void) {
    uint8_t table[32], commands[32], again[32];
    uint32_t finishes[2];
    skv_transaction decoded[2];

    skv_answer written = skv_write_table(table_a, table, sizeof table);
    if (written.refused != 0 || written.edition != 7) return wrong("skv_write_table");
    skv_table_answer read = skv_read_table(table, sizeof table);
    if (read.refused != 0 || memcmp(read.numbers, table_a.numbers, 32) != 0) return wrong("skv_read_table");

    skv_answer built = skv_schedule(expected, table, sizeof table, list, 2, commands, sizeof commands, finishes, 2);
    if (built.refused != 0) {
        printf("refused %u at %u edition %u\n", built.refused, built.position, built.edition);
        return 1;
    }
    printf("edition %u commands %u\n", built.edition, built.count);
    for (uint32_t i = 0; i < built.count; i++) {
        skv_command_answer c = skv_read_command(commands + 8 * i, 8);
        printf("%u %s %u %u\n", c.cycle, kinds[c.kind], c.bank, c.number);
    }
    for (uint32_t i = 0; i < 2; i++) printf("finish %u %u\n", i, finishes[i]);

    skv_answer transactions = skv_read_transactions(expected, table, sizeof table, list_bytes, sizeof list_bytes, decoded, 2);
    if (transactions.count != 2 || memcmp(decoded, list, sizeof list) != 0) return wrong("skv_read_transactions");
    skv_verdict_answer verdict = skv_judge(expected, table, sizeof table, commands, sizeof commands);
    if (verdict.refused != 0 || verdict.rule != 0 || verdict.edition != 7) return wrong("skv_judge");
    skv_answer bound = skv_bound(expected, table, sizeof table, 1, 1);
    /* The bound counts from last command to last command; the read's last word comes RL + B later. */
    uint32_t back = table_a.numbers[10] + table_a.numbers[2];
    if (bound.count != 44 || finishes[1] != finishes[0] + bound.count + back) return wrong("skv_bound");

    skv_controller c = skv_start(expected, table, sizeof table).controller;
    skv_answer ran = skv_run(&c, expected, table, sizeof table, list, 2, 20, again, sizeof again);
    if (ran.refused != 0 || ran.count != 2 || ran.cycles != 20) return wrong("skv_run");
    skv_controller_answer rest =
        skv_run_bytes(c, expected, table, sizeof table, list_bytes, sizeof list_bytes, 1000, again + 16, sizeof again - 16);
    if (rest.answer.count != 2 || rest.answer.cycles != 35 || rest.controller.cycle != 55) return wrong("skv_run_bytes");
    if (memcmp(again, commands, sizeof commands) != 0) return wrong("skv_run");

    /* The read arrives at cycle 20, and is lent when the write is served; then another at 20 comes too late. */
    static const skv_transaction pieces[3] = {{1, 0, 1, 1, 0}, {0, 0, 1, 1, 20}, {0, 0, 1, 1, 20}};
    c = skv_start(expected, table, sizeof table).controller;
    ran = skv_run(&c, expected, table, sizeof table, pieces, 1, 1000, again, sizeof again);
    if (ran.count != 2 || ran.cycles != 11 || c.lent != 1) return wrong("skv_run");
    ran = skv_run(&c, expected, table, sizeof table, pieces, 2, 1000, again + 16, sizeof again - 16);
    if (ran.count != 2 || ran.cycles != 44 || c.lent != 2) return wrong("skv_run");
    if (memcmp(again, commands, sizeof commands) != 0) return wrong("skv_run");
    ran = skv_run(&c, expected, table, sizeof table, pieces, 3, 1, again, sizeof again);
    if (ran.refused != 12 || c.lent != 2) return wrong("skv_run");

    /* The second engine builds the same; where a bank that nobody closes is open, it is at the last cycle at once. */
    uint32_t again_finishes[2];
    skv_answer straight = skv_schedule_straight(expected, table, sizeof table, list, 2, again, sizeof again, again_finishes, 2);
    if (straight.refused != 0 || straight.count != 4 || memcmp(again, commands, sizeof commands) != 0) return wrong("skv_schedule_straight");
    if (memcmp(again_finishes, finishes, sizeof finishes) != 0) return wrong("skv_schedule_straight");
    c = skv_start(expected, table, sizeof table).controller;
    c.banks[0].opened = 1;
    ran = skv_run_straight(&c, expected, table, sizeof table, list, 2, UINT32_MAX, again, sizeof again);
    if (ran.refused != 0 || ran.count != 0 || ran.cycles != 100000000 || c.cycle != 100000000) return wrong("skv_run_straight");

    skv_answer none = skv_schedule(expected, table, sizeof table, list, 2, commands, 31, finishes, 2);
    if (none.refused != 5 || none.edition != 7) return wrong("skv_schedule");
    skv_answer other = skv_schedule(5, table, sizeof table, list, 2, commands, 31, finishes, 2);
    if (other.refused != 10 || other.position != 7 || other.edition != 7) return wrong("skv_schedule");
    return 0;
}
