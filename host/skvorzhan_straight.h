/*
 * The second engine's calls; skvorzhan.h includes this.
 *
 * Where the plain engine tries each cycle, the second one goes straight to the next cycle at which a command leaves. Each of these calls has
 * the parameters, the answer and the promise of the plain one that it is named after: the same checks in the same order, the same refusals, the
 * same commands, finishing cycles and controller, and the same number of cycles run, idle ones counted. So either may stand in the other's
 * place, from any controller, and a list may be run by both in turn. The time of these goes with the commands that leave and not with the cycles: a
 * controller from which nothing can leave is at cycle 100,000,000 at once.
 */
#ifndef SKVORZHAN_STRAIGHT_H
#define SKVORZHAN_STRAIGHT_H

#include "skvorzhan.h"

#ifdef __cplusplus
extern "C" {
#endif

/* As skv_schedule, skv_schedule_bytes and skv_schedule_later_bytes. */
skv_answer skv_schedule_straight(uint16_t expected, const uint8_t *table, size_t table_len, const skv_transaction *list, size_t list_len,
                                 uint8_t *commands, size_t commands_len, uint32_t *finishes, size_t finishes_len);
skv_answer skv_schedule_straight_bytes(uint16_t expected, const uint8_t *table, size_t table_len, const uint8_t *list, size_t list_len,
                                       uint8_t *commands, size_t commands_len, uint32_t *finishes, size_t finishes_len);
skv_answer skv_schedule_straight_later_bytes(uint16_t expected, const uint8_t *table, size_t table_len, const uint8_t *list, size_t list_len,
                                             uint8_t *commands, size_t commands_len, uint32_t *finishes, size_t finishes_len);

/* As skv_run and skv_step. */
skv_answer skv_run_straight(skv_controller *c, uint16_t expected, const uint8_t *table, size_t table_len, const skv_transaction *list,
                            size_t list_len, uint32_t count, uint8_t *room, size_t room_len);
skv_answer skv_step_straight(skv_controller *c, uint16_t expected, const uint8_t *table, size_t table_len, const skv_transaction *list,
                             size_t list_len, uint8_t *room, size_t room_len);

/* As skv_run_bytes and skv_run_later_bytes. */
skv_controller_answer skv_run_straight_bytes(skv_controller c, uint16_t expected, const uint8_t *table, size_t table_len, const uint8_t *list,
                                             size_t list_len, uint32_t count, uint8_t *room, size_t room_len);
skv_controller_answer skv_run_straight_later_bytes(skv_controller c, uint16_t expected, const uint8_t *table, size_t table_len,
                                                   const uint8_t *list, size_t list_len, uint32_t count, uint8_t *room, size_t room_len);

#ifdef __cplusplus
}
#endif

#endif
