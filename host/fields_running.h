/* What fields.c tries of the calls that start a controller and go on with it. */
static const skv_transaction three[3] = {{.kind = 1, .start = 3, .bi = 1, .bc = 2, .arrival = 800},
                                         {.kind = 0, .start = 9, .bi = 1, .bc = 2, .arrival = 900},
                                         {.kind = 2, .start = 0, .bi = 0, .bc = 0, .arrival = 1000}};
static const uint8_t three_bytes[12] = {1, 3, 1, 2, 0, 9, 1, 2, 2, 0, 0, 0};
static const uint8_t three_laters[24] = {1, 3, 1, 2, 0x20, 3, 0, 0, 0, 9, 1, 2, 0x84, 3, 0, 0, 2, 0, 0, 0, 0xe8, 3, 0, 0};

/* All numbers differ. The list's ACTs go to banks 3 and 9, of groups 3 and 4, its data commands are WR, WRA to bank 3, RD, RDA to bank 9; then
 * comes a REF, which was not lent before and arrives in time. What stands past the five groups is not looked at. */
static skv_controller running(uint32_t acts, uint32_t datas) {
    skv_controller c = {.edition = EDITION, .cycle = 1000, .acts = acts, .datas = datas, .refresh = 402, .lent = 2};
    for (uint32_t k = 0; k < 16; k++) c.banks[k] = (skv_bank){.opened = 500 + k, .act = 100 + 10 * k, .rd = 101 + 10 * k, .wr = 102 + 10 * k};
    for (uint32_t k = 0; k < 4; k++) c.last[k] = 300 + k;
    for (uint32_t k = 0; k < 8; k++) {
        uint32_t from = k < 5 ? 600 + 10 * k : 6000 + 10 * k;
        c.groups[k] = (skv_group){.act = from, .rd = from + 1, .wr = from + 2};
    }
    return c;
}

/* Refused, c stays. */
static void stays(const engine *e, skv_controller c, uint32_t number) {
    uint8_t room[8];
    skv_controller_answer a = e->run_later_bytes(c, EDITION, group_table, 40, three_laters, 24, 1, room, 8);
    MUST(is(a.answer, number, 0, EDITION, 0, 0) && same(&a.controller, &c, sizeof c));
    a = e->run_bytes(c, EDITION, group_table, 40, three_bytes, 12, 1, room, 8);
    MUST(is(a.answer, number, 0, EDITION, 0, 0) && same(&a.controller, &c, sizeof c));
}

/* One cycle from c, by each call: it writes that command, and leaves want. */
static void goes(const engine *e, skv_controller c, skv_controller want, uint8_t kind, uint8_t bank, uint16_t number) {
    uint8_t room[8], right[8];
    put(right, 1000, kind, bank, number);
    want.lent = 3;
    skv_controller lent = c;
    MUST(is(e->step(&lent, EDITION, group_table, 40, three, 3, room, 8), 0, 0, EDITION, 1, 1));
    MUST(same(&lent, &want, sizeof want) && same(room, right, 8));
    lent = c;
    memset(room, 0, 8);
    MUST(is(e->run(&lent, EDITION, group_table, 40, three, 3, 1, room, 8), 0, 0, EDITION, 1, 1));
    MUST(same(&lent, &want, sizeof want) && same(room, right, 8));
    memset(room, 0, 8);
    skv_controller_answer a = e->run_later_bytes(c, EDITION, group_table, 40, three_laters, 24, 1, room, 8);
    MUST(is(a.answer, 0, 0, EDITION, 1, 1) && same(&a.controller, &want, sizeof want) && same(room, right, 8));
    memset(room, 0, 8);
    c.lent = 1; /* The read arrived at 900. */
    stays(e, c, 12);
    c.lent = 4;
    stays(e, c, 9);
    c.lent = 3; /* Of 4 bytes they arrive at 0. */
    a = e->run_bytes(c, EDITION, group_table, 40, three_bytes, 12, 1, room, 8);
    MUST(is(a.answer, 0, 0, EDITION, 1, 1) && same(&a.controller, &want, sizeof want) && same(room, right, 8));
    /* Another edition, and a stored cycle that is not before its own: all stays. */
    c.edition += 65536;
    stays(e, c, 9);
    c.edition -= 65536, c.refresh = c.cycle;
    stays(e, c, 9);
    c.refresh = 402, c.groups[4].wr = c.cycle;
    stays(e, c, 9);
}

static skv_controller fresh(void) {
    skv_controller c = {.edition = EDITION, .refresh = SKV_NEVER};
    for (int k = 0; k < 16; k++) c.banks[k] = (skv_bank){.opened = 0, .act = SKV_NEVER, .rd = SKV_NEVER, .wr = SKV_NEVER};
    for (int k = 0; k < 4; k++) c.last[k] = SKV_NEVER;
    for (int k = 0; k < 8; k++) c.groups[k] = (skv_group){.act = SKV_NEVER, .rd = SKV_NEVER, .wr = SKV_NEVER};
    return c;
}

static void fresh_controllers(void) {
    skv_controller_answer told = skv_start(EDITION, table, 32);
    skv_controller c = fresh();
    MUST(is(told.answer, 0, 0, EDITION, 0, 0) && same(&told.controller, &c, sizeof c));
    MUST(is(skv_start(1, table, 32).answer, 10, EDITION, EDITION, 0, 0));
}

static void running_controllers(const engine *e) {
    skv_controller c, want;
    want = c = running(1, 0); /* WR to bank 3 */
    want.cycle = 1001, want.datas = 1, want.banks[3].opened = 1, want.banks[3].wr = 1000, want.groups[3].wr = 1000;
    goes(e, c, want, 3, 3, 0);
    want = c = running(1, 1); /* WRA */
    want.cycle = 1001, want.datas = 2, want.banks[3].opened = 0, want.banks[3].wr = 1000, want.groups[3].wr = 1000;
    goes(e, c, want, 4, 3, 0);
    c = running(1, 2);
    c.banks[9].opened = 0;
    want = c; /* ACT to bank 9 */
    want.cycle = 1001, want.acts = 2;
    want.banks[9] = (skv_bank){.opened = 1, .act = 1000, .rd = SKV_NEVER, .wr = SKV_NEVER};
    want.last[0] = 1000, want.last[1] = 300, want.last[2] = 301, want.last[3] = 302, want.groups[4].act = 1000;
    goes(e, c, want, 0, 9, 1);
    want = c = running(2, 2); /* RD to bank 9 */
    want.cycle = 1001, want.datas = 3, want.banks[9].opened = 1, want.banks[9].rd = 1000, want.groups[4].rd = 1000;
    goes(e, c, want, 1, 9, 1);
    want = c = running(2, 3); /* RDA */
    want.cycle = 1001, want.datas = 4, want.banks[9].opened = 0, want.banks[9].rd = 1000, want.groups[4].rd = 1000;
    goes(e, c, want, 2, 9, 1);
    c = running(2, 4);
    for (int k = 0; k < 16; k++) c.banks[k].opened = 0;
    want = c; /* REF */
    want.cycle = 1001, want.acts = 3, want.refresh = 1000;
    goes(e, c, want, 5, 0, 2);

    /* Commands and cycles apart: ACT at the arrival, 800, WR after RCD, and WRA not yet. */
    uint8_t room[24];
    c = fresh();
    MUST(is(e->run(&c, EDITION, table, 32, three, 1, 816, room, 24), 0, 0, EDITION, 2, 816));
}
