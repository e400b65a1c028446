/* Prints where each field of the header's structs lies, a line each; the Rust program `layout` prints the same of its own. A struct with bytes
 * between its fields, or with a field that is not named here, ends it with status 1. */
#include <stdio.h>

#include "skvorzhan.h"

static size_t named, wrong;

#define FIELD(type, field) \
    (named += sizeof(((type *)0)->field), \
     printf(#type "." #field " at %zu, %zu bytes\n", offsetof(type, field), sizeof(((type *)0)->field)))

static void whole(const char *type, size_t size, size_t alignment) {
    printf("%s %zu bytes, aligned to %zu\n", type, size, alignment);
    if (named != size) {
        fprintf(stderr, "%s: %zu bytes are not a named field's\n", type, size - named);
        wrong = 1;
    }
    named = 0;
}

#define WHOLE(type) whole(#type, sizeof(type), _Alignof(type))

#define HEAD(type) (FIELD(type, refused), FIELD(type, position), FIELD(type, edition))

int main(void) {
    HEAD(skv_answer);
    FIELD(skv_answer, count);
    FIELD(skv_answer, cycles);
    WHOLE(skv_answer);
    HEAD(skv_verdict_answer);
    FIELD(skv_verdict_answer, rule);
    FIELD(skv_verdict_answer, copy);
    FIELD(skv_verdict_answer, record);
    WHOLE(skv_verdict_answer);
    HEAD(skv_capture_answer);
    FIELD(skv_capture_answer, count);
    FIELD(skv_capture_answer, rule);
    FIELD(skv_capture_answer, record);
    WHOLE(skv_capture_answer);
    HEAD(skv_serves_answer);
    FIELD(skv_serves_answer, serves);
    FIELD(skv_serves_answer, rule);
    FIELD(skv_serves_answer, record);
    FIELD(skv_serves_answer, transaction);
    WHOLE(skv_serves_answer);
    HEAD(skv_pattern_answer);
    FIELD(skv_pattern_answer, length);
    FIELD(skv_pattern_answer, count);
    WHOLE(skv_pattern_answer);
    HEAD(skv_table_answer);
    FIELD(skv_table_answer, numbers);
    WHOLE(skv_table_answer);
    HEAD(skv_transaction_answer);
    FIELD(skv_transaction_answer, kind);
    FIELD(skv_transaction_answer, start);
    FIELD(skv_transaction_answer, bi);
    FIELD(skv_transaction_answer, bc);
    FIELD(skv_transaction_answer, arrival);
    WHOLE(skv_transaction_answer);
    HEAD(skv_command_answer);
    FIELD(skv_command_answer, cycle);
    FIELD(skv_command_answer, kind);
    FIELD(skv_command_answer, bank);
    FIELD(skv_command_answer, number);
    WHOLE(skv_command_answer);
    HEAD(skv_capture_record_answer);
    FIELD(skv_capture_record_answer, stamp);
    FIELD(skv_capture_record_answer, kind);
    FIELD(skv_capture_record_answer, bank);
    WHOLE(skv_capture_record_answer);
    FIELD(skv_numbers, numbers);
    WHOLE(skv_numbers);
    FIELD(skv_group_numbers, numbers);
    WHOLE(skv_group_numbers);
    FIELD(skv_transaction, kind);
    FIELD(skv_transaction, start);
    FIELD(skv_transaction, bi);
    FIELD(skv_transaction, bc);
    FIELD(skv_transaction, arrival);
    WHOLE(skv_transaction);
    FIELD(skv_bank, opened);
    FIELD(skv_bank, act);
    FIELD(skv_bank, rd);
    FIELD(skv_bank, wr);
    WHOLE(skv_bank);
    FIELD(skv_group, act);
    FIELD(skv_group, rd);
    FIELD(skv_group, wr);
    WHOLE(skv_group);
    FIELD(skv_controller, edition);
    FIELD(skv_controller, cycle);
    FIELD(skv_controller, acts);
    FIELD(skv_controller, datas);
    FIELD(skv_controller, banks);
    FIELD(skv_controller, last);
    FIELD(skv_controller, groups);
    FIELD(skv_controller, refresh);
    FIELD(skv_controller, lent);
    WHOLE(skv_controller);
    FIELD(skv_controller_answer, controller);
    FIELD(skv_controller_answer, answer);
    WHOLE(skv_controller_answer);
    return wrong != 0;
}
