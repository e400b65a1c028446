/* Every field of every struct, and every parameter of every call, of either engine, with a value of its own, through the archive. Were two of
 * them in another order here than in the archive, some value would come back elsewhere. Ends with status 1 and the line where one does. */
#include "fields.h"
#include "fields_engines.h"
#include "fields_running.h"

static void one_record(void) {
    uint8_t out[40];
    MUST(is(skv_write_table(numbers, out, 32), 0, 0, EDITION, 0, 0) && same(out, table, 32));
    MUST(is(skv_write_table(numbers, out, 31), 1, 0, 0, 0, 0));
    skv_table_answer t = skv_read_table(table, 32);
    MUST(t.refused == 0 && t.position == 0 && t.edition == EDITION && same(t.numbers, numbers.numbers, 32));
    MUST(t.numbers[16] == 1 && t.numbers[17] == 5 && t.numbers[18] == 6 && t.numbers[19] == 3);
    t = skv_read_table(table, 31);
    MUST(t.refused == 1 && t.position == 0 && t.edition == 0 && t.numbers[0] == 0);
    MUST(is(skv_write_group_table(group_numbers, out, 40), 0, 0, EDITION, 0, 0) && same(out, group_table, 40));
    MUST(is(skv_write_group_table(group_numbers, out, 32), 1, 0, 0, 0, 0));
    t = skv_read_table(group_table, 40);
    MUST(t.refused == 0 && t.position == 0 && t.edition == EDITION && same(t.numbers, group_numbers.numbers, 40));
    t = skv_read_table(group_table, 39);
    MUST(t.refused == 1 && t.position == 0 && t.edition == 0 && t.numbers[19] == 0);

    const uint8_t four[4] = {1, 2, 3, 4};
    MUST(is(skv_write_transaction(1, 2, 3, 4, out, 4), 0, 0, 0, 0, 0) && same(out, four, 4));
    MUST(is(skv_write_transaction(1, 2, 3, 4, out, 5), 3, 0, 0, 0, 0));
    skv_transaction_answer x = skv_read_transaction(four, 4);
    MUST(x.refused == 0 && x.position == 0 && x.edition == 0 && x.kind == 1 && x.start == 2 && x.bi == 3 && x.bc == 4 && x.arrival == 0);
    MUST(skv_read_transaction(four, 3).refused == 3);
    const uint8_t later[8] = {1, 2, 3, 4, 0x67, 0x45, 0x23, 0x01};
    MUST(is(skv_write_later(1, 2, 3, 4, 0x01234567, out, 8), 0, 0, 0, 0, 0) && same(out, later, 8));
    MUST(is(skv_write_later(1, 2, 3, 4, 0x01234567, out, 4), 3, 0, 0, 0, 0));
    x = skv_read_later(later, 8);
    MUST(x.refused == 0 && x.position == 0 && x.edition == 0 && x.kind == 1 && x.start == 2 && x.bi == 3 && x.bc == 4);
    MUST(x.arrival == 0x01234567 && skv_read_later(later, 4).refused == 3);
    const uint8_t refresh[4] = {2, 0, 0, 0}, not_one[4] = {2, 0, 0, 1};
    x = skv_read_transaction(refresh, 4);
    MUST(x.refused == 0 && x.kind == 2 && x.start == 0 && x.bi == 0 && x.bc == 0);
    MUST(skv_read_transaction(not_one, 4).refused == 4);

    uint8_t eight[8];
    put(eight, 0x12345678, 3, 9, 0xabcd);
    MUST(is(skv_write_command(0x12345678, 3, 9, 0xabcd, out, 8), 0, 0, 0, 0, 0) && same(out, eight, 8));
    MUST(is(skv_write_command(0x12345678, 3, 9, 0xabcd, out, 7), 5, 0, 0, 0, 0));
    skv_command_answer c = skv_read_command(eight, 8);
    MUST(c.refused == 0 && c.position == 0 && c.edition == 0);
    MUST(c.cycle == 0x12345678 && c.kind == 3 && c.bank == 9 && c.number == 0xabcd);
    MUST(skv_read_command(eight, 7).refused == 7);

    const uint8_t seen[4] = {0x34, 0x12, 3, 9};
    MUST(is(skv_write_capture_record(0x1234, 3, 9, out, 4), 0, 0, 0, 0, 0) && same(out, seen, 4));
    MUST(is(skv_write_capture_record(0x1234, 3, 9, out, 3), 5, 0, 0, 0, 0));
    skv_capture_record_answer r = skv_read_capture_record(seen, 4);
    MUST(r.refused == 0 && r.position == 0 && r.edition == 0 && r.stamp == 0x1234 && r.kind == 3 && r.bank == 9);
    r = skv_read_capture_record(seen, 3);
    MUST(r.refused == 7 && r.position == 0 && r.edition == 0 && r.stamp == 0 && r.kind == 0 && r.bank == 0);
}

static const uint8_t bytes[12] = {1, 2, 3, 4, 0, 5, 6, 7, 0, 16, 1, 1};
static const skv_transaction untouched = {9, 9, 9, 9, 9};
/* The first two, 0x010203 cycles later. */
static const uint8_t laters[16] = {1, 2, 3, 4, 3, 2, 1, 0, 0, 5, 6, 7, 3, 2, 1, 0};

static void lists(void) {
    const skv_transaction first = {.kind = 1, .start = 2, .bi = 3, .bc = 4}, second = {.kind = 0, .start = 5, .bi = 6, .bc = 7};
    skv_transaction list[3] = {untouched, untouched, untouched};
    MUST(is(skv_read_transactions(EDITION, table, 32, bytes, 8, list, 3), 0, 0, EDITION, 2, 0));
    MUST(same(&list[0], &first, 8) && same(&list[1], &second, 8) && same(&list[2], &untouched, 8));
    MUST(is(skv_read_transactions(EDITION, table, 32, bytes, 8, list, 1), 3, 0, EDITION, 0, 0));
    MUST(is(skv_read_transactions(EDITION, table, 32, bytes, 12, list, 3), 4, 2, EDITION, 0, 0));
    MUST(is(skv_read_transactions(1, table, 32, bytes, 8, list, 3), 10, EDITION, EDITION, 0, 0));
    skv_transaction arriving[3] = {untouched, untouched, untouched};
    MUST(is(skv_read_later_transactions(EDITION, table, 32, laters, 16, arriving, 3), 0, 0, EDITION, 2, 0));
    MUST(arriving[0].kind == 1 && arriving[0].bc == 4 && arriving[0].arrival == 0x010203 && same(&arriving[2], &untouched, 8));
    MUST(is(skv_read_later_transactions(EDITION, table, 32, laters, 12, arriving, 3), 3, 0, EDITION, 0, 0));
    /* By the second limit of document 01: S + RCD is 155, to which come D + 1 = 40 for each further bank
     * and CCD = 5 for each further burst. */
    MUST(is(skv_bound(EDITION, table, 32, 4, 2), 0, 0, EDITION, 155 + 3 * 40 + 5, 0));
    MUST(is(skv_bound(EDITION, table, 32, 2, 4), 0, 0, EDITION, 155 + 40 + 3 * 5, 0));
}

static void schedules(const engine *e) {
    skv_transaction list[3] = {untouched, untouched, {.kind = 0, .start = 16, .bi = 1, .bc = 1}}, arriving[2];
    skv_read_transactions(EDITION, table, 32, bytes, 8, list, 2);
    skv_read_later_transactions(EDITION, table, 32, laters, 16, arriving, 2);
    /* 3 x 5 and 6 x 8 commands. */
    uint8_t commands[8 * 63] = {0}, again[8 * 63] = {0}, start[8];
    uint32_t finishes[3] = {9, 9, 9}, same_finishes[3] = {9, 9, 9};
    MUST(is(e->schedule(EDITION, table, 32, list, 2, commands, sizeof commands, finishes, 3), 0, 0, EDITION, 63, 0));
    MUST(is(e->schedule_bytes(EDITION, table, 32, bytes, 8, again, sizeof again, same_finishes, 3), 0, 0, EDITION, 63, 0));
    put(start, 0, 0, 2, 0);
    MUST(same(commands, start, 8) && same(commands, again, sizeof commands) && same(finishes, same_finishes, sizeof finishes));
    skv_command_answer last = skv_read_command(commands + 8 * 62, 8);
    MUST(last.kind == 2 && last.bank == 10 && last.number == 1 && finishes[1] == last.cycle + 13 + 4 && finishes[2] == 9);
    MUST(is(e->schedule_later_bytes(EDITION, table, 32, laters, 16, again, sizeof again, same_finishes, 3), 0, 0, EDITION, 63, 0));
    MUST(skv_read_command(again + 8 * 62, 8).cycle == last.cycle + 0x010203 && same_finishes[1] == finishes[1] + 0x010203);
    MUST(is(e->schedule(EDITION, table, 32, arriving, 2, commands, sizeof commands, finishes, 3), 0, 0, EDITION, 63, 0));
    MUST(same(commands, again, sizeof commands) && same(finishes, same_finishes, sizeof finishes));
    MUST(is(e->schedule(EDITION, table, 32, list, 3, commands, sizeof commands, finishes, 3), 4, 2, EDITION, 0, 0));
    MUST(is(e->schedule(EDITION, table, 32, list, 2, commands, 8 * 63 - 1, finishes, 3), 5, 0, EDITION, 0, 0));
    MUST(is(e->schedule(EDITION, table, 32, list, 2, commands, sizeof commands, finishes, 1), 6, 0, EDITION, 0, 0));
    MUST(is(e->schedule_bytes(EDITION, table, 32, bytes, 12, commands, sizeof commands, finishes, 3), 4, 2, EDITION, 0, 0));
    MUST(is(e->schedule_bytes(EDITION, table, 32, bytes, 8, commands, 8 * 63 - 1, finishes, 3), 5, 0, EDITION, 0, 0));
    MUST(is(e->schedule_bytes(EDITION, table, 32, bytes, 8, commands, sizeof commands, finishes, 1), 6, 0, EDITION, 0, 0));
    MUST(is(e->schedule_later_bytes(EDITION, table, 32, laters, 12, commands, sizeof commands, finishes, 3), 3, 0, EDITION, 0, 0));
    MUST(is(e->schedule_later_bytes(1, table, 32, laters, 16, commands, sizeof commands, finishes, 3), 10, EDITION, EDITION, 0, 0));
    /* A refresh finishes RFC after its REF. */
    const skv_transaction refresh = {.kind = 2, .start = 0, .bi = 0, .bc = 0};
    MUST(is(e->schedule(EDITION, table, 32, &refresh, 1, commands, 8, finishes, 1), 0, 0, EDITION, 1, 0));
    put(start, 0, 5, 0, 0);
    MUST(same(commands, start, 8) && finishes[0] == 50);
}

static void verdicts(void) {
    uint8_t schedule[32], pattern[48];
    put(schedule, 0, 0, 0, 0);
    put(schedule + 8, 11, 2, 0, 0);
    put(schedule + 16, 20, 0, 1, 1);
    put(schedule + 24, 25, 2, 1, 1); /* nearer to its ACT than RCD */
    MUST(says(skv_judge(EDITION, table, 32, schedule, 32), 0, 0, EDITION, 8, 0, 3));
    MUST(says(skv_judge(EDITION, table, 32, schedule, 31), 7, 0, EDITION, 0, 0, 0));
    MUST(says(skv_judge(1, table, 32, schedule, 32), 10, EDITION, EDITION, 0, 0, 0));
    /* Two REFs a cycle nearer than RFC, and an ACT that is; a REF while a bank is open. */
    put(schedule, 0, 5, 0, 0);
    put(schedule + 8, 49, 5, 0, 1);
    MUST(says(skv_judge(EDITION, table, 32, schedule, 16), 0, 0, EDITION, 12, 0, 1));
    put(schedule + 8, 49, 0, 0, 1);
    MUST(says(skv_judge(EDITION, table, 32, schedule, 16), 0, 0, EDITION, 12, 0, 1));
    put(schedule + 8, 50, 0, 0, 1);
    put(schedule + 16, 500, 5, 0, 2);
    MUST(says(skv_judge(EDITION, table, 32, schedule, 24), 0, 0, EDITION, 11, 0, 2));
    /* Banks 0 and 5 are of one group, banks 0 and 1 are not. */
    put(schedule, 0, 0, 0, 0);
    put(schedule + 8, 8, 0, 5, 1);
    MUST(says(skv_judge(EDITION, group_table, 40, schedule, 16), 0, 0, EDITION, 6, 0, 1));
    put(schedule + 8, 8, 0, 1, 1);
    MUST(says(skv_judge(EDITION, group_table, 40, schedule, 16), 0, 0, EDITION, 10, 0, 2));
    for (uint8_t bank = 0; bank < 3; bank++) {
        put(pattern + 8 * bank, 6u * bank, 0, bank, bank);
        put(pattern + 24 + 8 * bank, 17 + 5u * bank, 2, bank, bank);
    }
    /* The second ACT of copy 2 is the first with four before it. */
    MUST(says(skv_judge_pattern(EDITION, table, 32, pattern, 48, 60), 0, 0, EDITION, 7, 2, 1));
    MUST(says(skv_judge_pattern(EDITION, table, 32, pattern, 48, 0), 8, 0, EDITION, 0, 0, 0));
    MUST(says(skv_judge_pattern(1, table, 32, pattern, 48, 60), 10, EDITION, EDITION, 0, 0, 0));
}

static void captures(void) {
    /* A tick, an ACT at 65,535, a tick over the wrap, an RDA nearer to its ACT than RCD, and an ACT that stays open. */
    const uint8_t capture[20] = {0xfe, 0xff, 255, 0, 0xff, 0xff, 0, 3, 0, 0, 255, 0, 9, 0, 2, 3, 8, 0, 0, 1};
    uint8_t commands[25], right[25];
    memset(commands, 77, 25);
    put(right, 65535, 0, 3, 0);
    put(right + 8, 65545, 2, 3, 0);
    put(right + 16, 131080, 0, 1, 0);
    right[24] = 77;
    MUST(finds(skv_judge_capture(EDITION, table, 32, capture, 20, commands, 25), 0, 0, EDITION, 3, 8, 1) && same(commands, right, 25));
    MUST(finds(skv_judge_capture(EDITION, table, 32, capture, 8, commands, 8), 0, 0, EDITION, 1, 10, 1));
    MUST(finds(skv_judge_capture(EDITION, table, 32, capture, 4, commands, 0), 0, 0, EDITION, 0, 0, 0));
    MUST(finds(skv_judge_capture(EDITION, table, 32, capture, 20, commands, 23), 5, 0, EDITION, 0, 0, 0));
    MUST(finds(skv_judge_capture(EDITION, table, 32, capture, 19, commands, 25), 7, 0, EDITION, 0, 0, 0));
    MUST(finds(skv_judge_capture(1, table, 32, capture, 20, commands, 25), 10, EDITION, EDITION, 0, 0, 0));
    const uint8_t again[12] = {0, 0, 255, 0, 1, 0, 0, 3, 1, 0, 2, 3};
    MUST(finds(skv_judge_capture(EDITION, table, 32, again, 12, commands, 25), 11, 2, EDITION, 0, 0, 0));
}

static void serving(void) {
    const skv_transaction two[2] = {{.kind = 0, .start = 9, .bi = 1, .bc = 1, .arrival = 70}, {.kind = 1, .start = 3, .bi = 1, .bc = 1, .arrival = 80}};
    uint8_t schedule[40];
    put(schedule, 0, 0, 9, 0);
    put(schedule + 8, 11, 2, 9, 0);
    put(schedule + 16, 300, 0, 3, 1);
    put(schedule + 24, 311, 4, 3, 1);
    asked(two, 2, schedule, 32, 1, 0, 0, 0);
    asked(two, 1, schedule, 16, 1, 0, 0, 0);
    /* The write is missing; the read, and with it the lower, is. */
    asked(two, 2, schedule, 16, 0, 0, 0, 1);
    asked(two, 2, schedule + 16, 16, 0, 0, 0, 0);
    /* A record outside the list. */
    asked(two, 1, schedule, 32, 0, 0, 0, 1);
    asked(two, 0, schedule, 32, 0, 0, 0, 0);
    /* The judge comes first: the last record nearer to its ACT than RCD. */
    put(schedule + 24, 310, 4, 3, 1);
    asked(two, 2, schedule, 32, 0, 8, 3, 0);
}

static void patterns(void) {
    /* A write: its ACT, two data commands from RCD = 11 on, CCD = 5 apart, and WL + B + WR + RP = 40 to the next ACT. */
    uint8_t pattern[25], right[25];
    memset(pattern, 77, 25);
    put(right, 0, 0, 0, 0);
    put(right + 8, 11, 3, 0, 0);
    put(right + 16, 16, 4, 0, 0);
    right[24] = 77;
    MUST(gives(skv_shortest_pattern(EDITION, table, 32, 1, 1, 2, 128, pattern, 25), 0, 0, EDITION, 56, 3) && same(pattern, right, 25));
    /* Two banks with one read each: the fourth ACT before one is two copies before it, FAW = 155 cycles at least. */
    MUST(gives(skv_shortest_pattern(EDITION, table, 32, 0, 2, 1, 128, pattern, 25), 5, 0, EDITION, 0, 0));
    uint8_t two[32];
    MUST(gives(skv_shortest_pattern(EDITION, table, 32, 0, 2, 1, 128, two, 32), 0, 0, EDITION, 78, 4));
    MUST(gives(skv_shortest_pattern(EDITION, table, 32, 0, 2, 1, 77, two, 32), 13, 0, EDITION, 0, 0));
    MUST(gives(skv_shortest_pattern(EDITION, table, 32, 2, 1, 2, 128, pattern, 25), 4, 0, EDITION, 0, 0));
    MUST(gives(skv_shortest_pattern(1, table, 32, 1, 1, 2, 128, pattern, 25), 10, EDITION, EDITION, 0, 0) && same(pattern, right, 25));
}

int main(void) {
    one_record();
    lists();
    for (int k = 0; k < 2; k++) schedules(&engines[k]);
    verdicts();
    captures();
    serving();
    patterns();
    fresh_controllers();
    for (int k = 0; k < 2; k++) running_controllers(&engines[k]);
    return wrong;
}
