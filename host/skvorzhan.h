/*
 * Skvorzhan: SDRAM command schedules. The calls of the archive libhost.a, for C on x86-64; those of the second engine, which promise the same as
 * the plain ones, are in skvorzhan_straight.h, which this includes.
 *
 * What holds of every call
 *
 * Any bytes and any numbers may be handed in. A call refuses what it cannot take, by the numbers below, and then changes no buffer and no
 * controller. A call that is not refused writes each result from its buffer's start and leaves all beyond as it stood. What a call is lent as
 * const it only reads.
 *
 * The checks go in the order of the numbers, but for 10, which goes straight after number 2, and of a capture, whose 5 comes last, after 11: the
 * first that applies is told. A call makes only the checks that its comment names, in the order in which it names them.
 *
 *   1  table neither 32 nor 40 bytes
 *   2  a table number out of range, CCD below 2 or below B, a long number below its short one
 *   3  transaction bytes not a multiple of 4, or for those of 8 bytes of 8, or over 256 transactions, or too few places to decode into
 *   4  a transaction out of range, a refresh where RFC is 0 among them, or an arrival above 20,000,000 or less than the one before it; the
 *      position is the lowest such transaction's number, from 0. Where there is no list, what is asked for is out of range; the position is 0
 *   5  too little room for commands
 *   6  fewer places for finishing cycles than transactions
 *   7  schedule bytes not a multiple of 8, or capture bytes not a multiple of 4, or over 69,632 records
 *   8  pattern length 0
 *   9  a controller that cannot be gone on with: its cycle at 100,000,000 or more, an edition not the table's, a stored cycle (of the table's
 *      banks and groups, of the four ACTs, of the last REF) not before its own cycle, more commands gone from a queue than the list puts
 *      there, a data command gone whose ACT has not, or more transactions lent before than the list has
 *  10  the expected edition is not the table's; the position is the table's edition. Expected 0 always differs, since no table has it
 *  11  a capture record whose stamp is equal to that of the record before it, or whose true cycle is above 4,294,967,295; the position is the
 *      lowest such record's number, from 0, ticks counted
 *  12  a late piece: the first transaction that was not lent before arrives below the controller's cycle
 *  13  there is no pattern up to the greatest length
 *
 * Each call that is lent a table is told before it which edition the caller expects. Those that read or write one record are told none.
 *
 * The position is 0 but for numbers 4, 10 and 11. The edition of an answer is the table's; it is 0 where no table is given, and for refusals 1
 * and 2.
 *
 * What a caller owes: each pointer points to that many elements, aligned for its type; what is lent for writing overlaps nothing else that is
 * lent in the same call; and nobody else writes to what is lent while the call runs. A pointer is never NULL, even where the number is 0: for
 * that the archive promises nothing.
 * The calls keep nothing: no state beside the controller that is lent, no allocation, no output. They may be made from several threads at once.
 *
 * Numbers in bytes are little-endian.
 *
 *   table, 32 bytes       sixteen 16-bit numbers: edition, banks, B, CCD, RCD, RP, RAS, RC, RRD, FAW, RL, WL, RTP, WR, WTR, RFC. Edition is
 *                         1 to 65,535, banks 1 to 16, RFC 0 to 1,023, 0 meaning that the table has no refresh, the others 1 to 1,023; CCD is
 *                         at least 2 and at least B
 *   table, 40 bytes       the sixteen numbers, then the group count, long CCD, long RRD and long WTR. The group count is 1 to 8 and at most
 *                         banks, each long number at most 1,023 and not below the short one. A bank's group is its number modulo the group
 *                         count. Between commands of one group CCD, RRD and WTR are the long ones, across groups the short ones; in the bound
 *                         they are the long ones. A table of 32 bytes counts as one group, each long number equal to its short one. Every call
 *                         that is lent a table takes either
 *   transaction, 4 bytes  type (0 read, 1 write, 2 refresh), start bank, BI, BC. BI and BC are 1 to 16; start is below banks and BI is at most
 *                         banks. Its banks are start, start + 1 and so on, BI of them, with bank 0 after the last. Of a refresh start, BI and
 *                         BC are 0; a table whose RFC is 0 refuses it. It arrives at cycle 0
 *   transaction, 8 bytes  the same, then its arrival (32 bits), at most 20,000,000 and in a list never less than the one before it. Neither
 *                         queue sees the transaction before that cycle. Each call that is lent transactions as bytes is there for either
 *                         record: one with `later` in its name takes those of 8 bytes
 *   command, 8 bytes      cycle (32 bits), kind (0 ACT, 1 RD, 2 RDA, 3 WR, 4 WRA, 5 REF), bank (of a REF 0), transaction number (16 bits)
 *   capture record,       stamp (16 bits), kind, bank; kind 255 with bank 0 is a tick, which is no command, and any other a command. The stamp
 *   4 bytes               runs round from 65,535 to 0. The first record's true cycle is its stamp, and each later one's is that of the record
 *                         before it and the difference of their stamps, taken round the wrap; so no gap may reach 65,536, and ticks are sent
 *                         where one would
 */
#ifndef SKVORZHAN_H
#define SKVORZHAN_H

#include <stddef.h>
#include <stdint.h>

#ifdef __cplusplus
extern "C" {
#endif

/* A stored cycle of a controller that stands for "never". */
#define SKV_NEVER 4294967295u

/* refused: 0, or the number of the refusal; then count and cycles are 0.
 * count: commands written (skv_schedule, skv_run and skv_step, those from bytes, and those of the second engine), transactions read
 * (skv_read_transactions and skv_read_later_transactions), or the bound (skv_bound); else 0, for skv_write_command and
 * skv_write_capture_record too. cycles: cycles run (skv_run and skv_step, and likewise); else 0. */
typedef struct skv_answer { uint32_t refused, position, edition, count, cycles; } skv_answer;

/* rule: 0 where the schedule or pattern is accepted, else the first broken rule, 1 to 12. copy: the lowest that breaks it, from 1, for a
 * pattern; 0 for a schedule. record: from 0; for rule 10 the number of records. Where refused or accepted, rule, copy and record are 0. */
typedef struct skv_verdict_answer { uint32_t refused, position, edition, rule, copy, record; } skv_verdict_answer;

/* count: commands written. rule: 0 where they are accepted, else the first broken rule, 1 to 12. record: from 0 of the written commands; for
 * rule 10 their count. Where refused, count, rule and record are 0; where accepted, rule and record are. */
typedef struct skv_capture_answer { uint32_t refused, position, edition, count, rule, record; } skv_capture_answer;

/* serves: 1 where the schedule serves the list, else 0. rule and record: as in a verdict, both 0 where the judge accepts. transaction: where it
 * accepts and serves is 0, the lowest transaction at fault, from 0, or the list's length where none is; else 0. Where refused, all four are 0. */
typedef struct skv_serves_answer { uint32_t refused, position, edition, serves, rule, record, transaction; } skv_serves_answer;

/* length: the least length of a pattern. count: the commands of the pattern, written. Where refused, both are 0. */
typedef struct skv_pattern_answer { uint32_t refused, position, edition, length, count; } skv_pattern_answer;

/* The twenty numbers, of a table of 32 bytes with 1 group and the short CCD, RRD and WTR again. Where refused, all twenty are 0. */
typedef struct skv_table_answer {
    uint32_t refused, position, edition;
    uint16_t numbers[20];
} skv_table_answer;

/* Where refused, kind, start, bi, bc and arrival are 0. Of a transaction of 4 bytes the arrival is 0. */
typedef struct skv_transaction_answer {
    uint32_t refused, position, edition;
    uint8_t kind, start, bi, bc;
    uint32_t arrival;
} skv_transaction_answer;

/* Where refused, cycle, kind, bank and number are 0. */
typedef struct skv_command_answer {
    uint32_t refused, position, edition;
    uint32_t cycle;
    uint8_t kind, bank;
    uint16_t number;
} skv_command_answer;

/* Where refused, stamp, kind and bank are 0. */
typedef struct skv_capture_record_answer {
    uint32_t refused, position, edition;
    uint16_t stamp;
    uint8_t kind, bank;
} skv_capture_record_answer;

/* The sixteen numbers of a table of 32 bytes, and the twenty of one of 40, in the order of its bytes. */
typedef struct skv_numbers { uint16_t numbers[16]; } skv_numbers;
typedef struct skv_group_numbers { uint16_t numbers[20]; } skv_group_numbers;

typedef struct skv_transaction {
    uint8_t kind;     /* 0 read, 1 write, 2 refresh; of a refresh start, bi and bc are 0 */
    uint8_t start;    /* the first bank */
    uint8_t bi;       /* how many, with bank 0 after the table's last */
    uint8_t bc;       /* data commands to each */
    uint32_t arrival; /* the first cycle at which a queue sees it */
} skv_transaction;

/* A bank: open unless opened is 0; the cycles of its last ACT and of the last RD and WR since. In the bank that it goes to, each ACT, RD and WR
 * writes 1 to opened and each RDA and WRA 0, whatever number stood there: after an RD, 1 stands where 3 was handed in. A bank that no command
 * goes to keeps its number. */
typedef struct skv_bank { uint32_t opened, act, rd, wr; } skv_bank;

/* A group of banks: the cycles of its latest ACT, RD and WR. */
typedef struct skv_group { uint32_t act, rd, wr; } skv_group;

/* A running controller. Any bits are one; what number 9 says of them is checked by the calls. Of the banks and of the groups only the table's
 * are read or changed. No byte lies between the fields: it is 98 numbers in 392 bytes. */
typedef struct skv_controller {
    uint32_t edition;
    uint32_t cycle; /* the next to be tried */
    uint32_t acts;  /* gone from the ACT queue, each REF among them */
    uint32_t datas; /* gone from the data queue */
    skv_bank banks[16];
    uint32_t last[4]; /* the last four ACTs, newest first */
    skv_group groups[8];
    uint32_t refresh; /* the last REF */
    uint32_t lent;    /* how many transactions it was lent before: the length of the last run's list */
} skv_controller;

typedef struct skv_controller_answer {
    skv_controller controller;
    skv_answer answer;
} skv_controller_answer;

/* Checks 1, 2. Answers the twenty numbers and the table's edition. */
skv_table_answer skv_read_table(const uint8_t *bytes, size_t bytes_len);

/* Checks 1 (out is not 32 bytes, or for twenty numbers 40), 2. Writes the bytes of the table. The edition is the table's, count is 0. */
skv_answer skv_write_table(skv_numbers numbers, uint8_t *out, size_t out_len);
skv_answer skv_write_group_table(skv_group_numbers numbers, uint8_t *out, size_t out_len);

/* Checks 3 (not 4 bytes), 4 (out of range, banks counting as 16, a refresh accepted; position 0). Answers the four numbers. */
skv_transaction_answer skv_read_transaction(const uint8_t *bytes, size_t bytes_len);

/* Checks 3 (out is not 4 bytes), 4 (as skv_read_transaction). Writes the 4 bytes of the transaction. count is 0. */
skv_answer skv_write_transaction(uint8_t kind, uint8_t start, uint8_t bi, uint8_t bc, uint8_t *out, size_t out_len);

/* As the two before it, for a transaction of 8 bytes: 3 (not 8 bytes), 4 also for an arrival above 20,000,000. */
skv_transaction_answer skv_read_later(const uint8_t *bytes, size_t bytes_len);
skv_answer skv_write_later(uint8_t kind, uint8_t start, uint8_t bi, uint8_t bc, uint32_t arrival, uint8_t *out, size_t out_len);

/* Checks 7 (not 8 bytes). Any 8 bytes are a command. */
skv_command_answer skv_read_command(const uint8_t *bytes, size_t bytes_len);

/* Checks 5 (out under 8 bytes). Writes the 8 bytes of the command; any numbers are one. Bytes of out beyond the eighth stay as they stood. count
 * is 0. */
skv_answer skv_write_command(uint32_t cycle, uint8_t kind, uint8_t bank, uint16_t number, uint8_t *out, size_t out_len);

/* Checks 7 (not 4 bytes). Any 4 bytes are a capture record. */
skv_capture_record_answer skv_read_capture_record(const uint8_t *bytes, size_t bytes_len);

/* Checks 5 (out under 4 bytes). Writes the 4 bytes of the capture record; any numbers are one. Bytes of out beyond the fourth stay as they
 * stood. count is 0. */
skv_answer skv_write_capture_record(uint16_t stamp, uint8_t kind, uint8_t bank, uint8_t *out, size_t out_len);

/* Checks 1, 2, 10, 3 (bytes not a multiple of 4, or for transactions of 8 bytes of 8, over 256 transactions, or more than list has places), 4.
 * Writes the transactions into list; places beyond them stay as they stood. count is the number of transactions. */
skv_answer skv_read_transactions(uint16_t expected, const uint8_t *table, size_t table_len, const uint8_t *bytes, size_t bytes_len,
                                 skv_transaction *list, size_t list_len);
skv_answer skv_read_later_transactions(uint16_t expected, const uint8_t *table, size_t table_len, const uint8_t *bytes, size_t bytes_len,
                                       skv_transaction *list, size_t list_len);

/* Checks 1, 2, 10, 3 (over 256 transactions), 4, 5 (commands_len under 8 x the commands due), 6 (finishes_len under list_len).
 * Writes the schedule that the cycle rule gives, 8 bytes for each command, oldest first, and into finishes, for each transaction, the cycle at
 * which it finishes: a write at its last data command, a read RL + B cycles after its last data command, when its last word has come back, a
 * refresh RFC cycles after its REF; so the finishing cycles need not ascend. Bytes and places beyond stay as they stood. A refresh is one
 * command due. count is the number of commands. */
skv_answer skv_schedule(uint16_t expected, const uint8_t *table, size_t table_len, const skv_transaction *list, size_t list_len,
                        uint8_t *commands, size_t commands_len, uint32_t *finishes, size_t finishes_len);

/* As skv_schedule, with the transactions' bytes for the list, 4 of each, or 8: 3 also where list_len is not a multiple of that. */
skv_answer skv_schedule_bytes(uint16_t expected, const uint8_t *table, size_t table_len, const uint8_t *list, size_t list_len,
                              uint8_t *commands, size_t commands_len, uint32_t *finishes, size_t finishes_len);
skv_answer skv_schedule_later_bytes(uint16_t expected, const uint8_t *table, size_t table_len, const uint8_t *list, size_t list_len,
                                    uint8_t *commands, size_t commands_len, uint32_t *finishes, size_t finishes_len);

/* Checks 1, 2, 10, 7. Accepts the schedule exactly when every timing rule holds of each record and at the end every bank is closed; otherwise
 * names the first record that breaks a rule, and the first rule that it breaks, 11 and 12 being tested after 9. The transaction numbers are not
 * looked at. A REF is judged where RFC is 0 too. */
skv_verdict_answer skv_judge(uint16_t expected, const uint8_t *table, size_t table_len, const uint8_t *schedule, size_t schedule_len);

/* Checks 1, 2, 10, 7, 8. Copy n, from 1, has length x (n - 1) added to each cycle, in numbers that never wrap. Accepts the pattern exactly when
 * every number of copies, set end to end, is a legal schedule; otherwise names the lowest copy, its first record that breaks a rule, and the
 * rule. */
skv_verdict_answer skv_judge_pattern(uint16_t expected, const uint8_t *table, size_t table_len, const uint8_t *pattern, size_t pattern_len,
                                     uint32_t length);

/* Checks 1, 2, 10, 7 (not a multiple of 4, or over 69,632 records), 11, 5 (commands_len under 8 x the records that are not ticks).
 * Writes the capture as commands, 8 bytes each, with their true cycles, ticks dropped, transaction number 0, and judges them as skv_judge does.
 * A verdict against them is an answer and not a refusal: they stay written. Bytes beyond stay as they stood. count is the number of commands.
 * Any legal schedule, sent in order of cycle with a tick at most at each cycle without a command, none past 4,294,967,295, the first record below
 * cycle 65,536, no gap of 65,536 or more, and at most 69,632 records in all, comes back with its cycles, kinds and banks. */
skv_capture_answer skv_judge_capture(uint16_t expected, const uint8_t *table, size_t table_len, const uint8_t *capture, size_t capture_len,
                                     uint8_t *commands, size_t commands_len);

/* Checks 1, 2, 10, 3 (over 256 transactions), 4, 7. Does the schedule serve the list? Yes exactly when the judge accepts it, no record's number
 * is outside the list, no record is anything but a command due under its number, and every transaction's ACTs and data commands occur exactly
 * once, with its number, banks and type, all data commands in queue order, the last at each bank with auto precharge; ACTs may stand in any order,
 * but the latest ACT of a data command's bank carries that command's number; a refresh's REF occurs exactly once, after every command of earlier
 * transactions and before every command of later ones. Otherwise the judge's verdict is told, or, where it accepts, the lowest transaction at
 * fault: one of which a command is missing, repeated or not its own, of which a data command comes after an ACT that carries another number or
 * stands after one that the queue places later, or whose REF is misplaced. Where none is, a record's number is outside the list, and the list's
 * length is told: for an empty list and a schedule that is not empty, 0. Arrivals are not looked at. A schedule of skv_schedule serves its list. */
skv_serves_answer skv_serves(uint16_t expected, const uint8_t *table, size_t table_len, const skv_transaction *list, size_t list_len,
                             const uint8_t *schedule, size_t schedule_len);

/* As skv_serves, with the transactions' bytes for the list, 4 of each, or 8: 3 also where list_len is not a multiple of that. */
skv_serves_answer skv_serves_bytes(uint16_t expected, const uint8_t *table, size_t table_len, const uint8_t *list, size_t list_len,
                                   const uint8_t *schedule, size_t schedule_len);
skv_serves_answer skv_serves_later_bytes(uint16_t expected, const uint8_t *table, size_t table_len, const uint8_t *list, size_t list_len,
                                         const uint8_t *schedule, size_t schedule_len);

/* Checks 1, 2, 10, 4 (kind neither 0, a read, nor 1, a write; bi or bc 0; bi x (1 + bc) above 6; most 0 or above 128; bi above banks), 5
 * (pattern_len under 8 x bi x (1 + bc)), 13. Answers the least length, up to most, of a pattern that skv_judge_pattern accepts: it starts with the
 * ACT of bank 0 at cycle 0; each bank below bi, in any order, is opened once and given bc data commands, the last of which closes it; no command
 * comes past cycle length - 1. Writes the pattern's commands, 8 bytes each, with transaction number 0: of all such patterns of that length the
 * one whose records, compared in order by cycle, then kind, then bank, come first. Bytes beyond stay as they stood. Refuses as 13 exactly where
 * there is no such pattern up to most. count is the number of commands, bi x (1 + bc). */
skv_pattern_answer skv_shortest_pattern(uint16_t expected, const uint8_t *table, size_t table_len, uint8_t kind, uint8_t bi, uint8_t bc,
                                        uint32_t most, uint8_t *pattern, size_t pattern_len);

/* Checks 1, 2, 10, 4 (bi or bc outside 1 to 16, or bi above banks; position 0). count is the bound: the last data command of a transaction of
 * (bi, bc) comes at most so many cycles after the later of its arrival and the last data command of the one before it, where that is a refresh
 * its finish; the first's after its arrival. A write finishes there, a read RL + B cycles later. A refresh has no bound of (bi, bc): its REF comes
 * within S, document 01's number of the table, of where its count starts. */
skv_answer skv_bound(uint16_t expected, const uint8_t *table, size_t table_len, uint8_t bi, uint8_t bc);

/* Checks 1, 2, 10. Answers a fresh controller of the table's edition: cycle 0, all banks closed, "never" throughout, nothing lent. Where refused,
 * one of edition 0, which no table has. */
skv_controller_answer skv_start(uint16_t expected, const uint8_t *table, size_t table_len);

/* Checks 1, 2, 10, 3 (over 256 transactions), 4, 5 (room_len under 8 x the lesser of count and the commands left in the two queues, arrived or
 * not), 9, 12. Runs the cycle rule on from what c tells, and stops after count cycles, when the list is served, or at cycle 100,000,000, whichever
 * is first. Transactions may come in pieces: each run is lent the whole list so far, and leaves its length in c, with a count of 0 too. From a
 * fresh controller, pieces of which none is refused, run to the end, give the commands, the controller and the cycles of the whole list at once.
 * Writes the commands that go, 8 bytes each, into room, and changes c to what it then tells. Bytes beyond, and what c keeps past the table's
 * banks and past its groups, stay as they stood. Of the four ACTs rule 7 reads the fourth; rule 6 reads the groups' ACTs, rule 9 their RDs and
 * WRs. count is the number of commands, cycles the number of cycles run. */
skv_answer skv_run(skv_controller *c, uint16_t expected, const uint8_t *table, size_t table_len, const skv_transaction *list, size_t list_len,
                   uint32_t count, uint8_t *room, size_t room_len);

/* As skv_run with a count of 1. */
skv_answer skv_step(skv_controller *c, uint16_t expected, const uint8_t *table, size_t table_len, const skv_transaction *list, size_t list_len,
                    uint8_t *room, size_t room_len);

/* As skv_run, with the transactions' bytes for the list, 4 of each, or 8 (3 also where list_len is not a multiple of that), and with the
 * controller handed in and back by value. Where refused, it comes back as it was. */
skv_controller_answer skv_run_bytes(skv_controller c, uint16_t expected, const uint8_t *table, size_t table_len, const uint8_t *list,
                                    size_t list_len, uint32_t count, uint8_t *room, size_t room_len);
skv_controller_answer skv_run_later_bytes(skv_controller c, uint16_t expected, const uint8_t *table, size_t table_len, const uint8_t *list,
                                          size_t list_len, uint32_t count, uint8_t *room, size_t room_len);

#ifdef __cplusplus
}
#endif

#include "skvorzhan_straight.h"
#endif
