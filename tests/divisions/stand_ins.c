// Small libraries in the place of the preparer, by STAND_IN. RIGHT divides as laying out may, and no other does.
#include "rack.h"

enum { RIGHT, NONE, ANOTHER, IN_A_TABLE, BY_THE_COMPILER, REPEATED, IN_PREPARE, BY_THE_SPACING, FOR_ANOTHER_VALUE, THEN_REFUSED };

__attribute__((noinline)) static uint32_t quotient(uint32_t a, uint32_t b) { return a / b; }

__attribute__((noinline)) static uint32_t modulo(uint32_t a, uint32_t b) { return a % b; }

static const uint64_t refusal = (uint64_t)1 << 63 | (uint64_t)RACK_NO_ROOM << 56;

static uint32_t (*const table[])(uint32_t, uint32_t) = {quotient, modulo};

uint64_t rack_equalise(const uint8_t *settings, size_t settings_length, const uint8_t *task, size_t task_length, uint8_t *out,
                       size_t out_length) {
    (void)settings, (void)settings_length, (void)task, (void)task_length, (void)out, (void)out_length;
    return 0;
}

// A file of one BEAT, whose value is P / H; refused 9 where there is no room.
uint64_t rack_lay_out(const uint8_t *settings, size_t settings_length, const uint8_t *file, size_t file_length, uint8_t *out,
                      size_t out_length) {
    uint32_t spacing = settings[5], window = settings[6], period = settings[8], value = 0;
    (void)file;
    if (STAND_IN != THEN_REFUSED && out_length < RACK_RECORD) return refusal;
    if (STAND_IN == ANOTHER) value = modulo(period, window);
    if (STAND_IN == IN_A_TABLE) value = table[out_length % 2](period, window);
    if (STAND_IN == BY_THE_COMPILER) value = (uint32_t)(((unsigned __int128)period << 64) / window);
    if (STAND_IN == REPEATED) value = quotient(period + 1, window);
    // by a constant
    out[0] = (uint8_t)((settings_length + file_length + value) / 12);
    if (STAND_IN != NONE) value = quotient(period, STAND_IN == BY_THE_SPACING ? spacing * window : window);
    out[4] = (uint8_t)(STAND_IN == FOR_ANOTHER_VALUE ? value + 1 : value);
    return out_length < RACK_RECORD ? refusal : RACK_RECORD;
}

uint64_t rack_prepare(const uint8_t *settings, size_t settings_length, const uint8_t *task, size_t task_length, uint8_t *out,
                      size_t out_length) {
    if (STAND_IN == IN_PREPARE) rack_lay_out(settings, settings_length, task, task_length, out, out_length);
    return rack_lay_out(settings, settings_length, task, task_length, out, out_length);
}
