/* The calls of the two engines side by side: what fields.c tries of the plain one it tries of the second too. */
typedef struct engine {
    skv_answer (*schedule)(uint16_t, const uint8_t *, size_t, const skv_transaction *, size_t, uint8_t *, size_t, uint32_t *, size_t);
    skv_answer (*schedule_bytes)(uint16_t, const uint8_t *, size_t, const uint8_t *, size_t, uint8_t *, size_t, uint32_t *, size_t);
    skv_answer (*schedule_later_bytes)(uint16_t, const uint8_t *, size_t, const uint8_t *, size_t, uint8_t *, size_t, uint32_t *, size_t);
    skv_answer (*run)(skv_controller *, uint16_t, const uint8_t *, size_t, const skv_transaction *, size_t, uint32_t, uint8_t *, size_t);
    skv_answer (*step)(skv_controller *, uint16_t, const uint8_t *, size_t, const skv_transaction *, size_t, uint8_t *, size_t);
    skv_controller_answer (*run_bytes)(skv_controller, uint16_t, const uint8_t *, size_t, const uint8_t *, size_t, uint32_t, uint8_t *, size_t);
    skv_controller_answer (*run_later_bytes)(skv_controller, uint16_t, const uint8_t *, size_t, const uint8_t *, size_t, uint32_t, uint8_t *, size_t);
} engine;

static const engine engines[2] = {{skv_schedule, skv_schedule_bytes, skv_schedule_later_bytes, skv_run, skv_step, skv_run_bytes, skv_run_later_bytes},
                                  {skv_schedule_straight, skv_schedule_straight_bytes, skv_schedule_straight_later_bytes, skv_run_straight,
                                   skv_step_straight, skv_run_straight_bytes, skv_run_straight_later_bytes}};
