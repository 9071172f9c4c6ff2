// Two controllers run task B in steady periods of 100 ticks, and a spare one watches them. Controller 1 is silent after its first period. It
// prints what each look shows, and exits with 1 where a call is refused or the silence is not noticed in time.
#include <stdio.h>
#include <stdlib.h>

#include "rack.h"

enum { WINDOW = 20, PERIOD = 100, CONTROLLERS = 2, SILENT = 1 };

// The BEATs of task B laid out, by b.list: the ticks at which they end, each 3 after its start, and their values.
static const struct {
    uint32_t end, value;
} beats[] = {{3, 1}, {23, 4}};

static const char *const healths[] = {
    [RACK_WAITING] = "waiting", [RACK_WELL] = "well", [RACK_SUSPECT] = "suspect", [RACK_FAILED] = "failed"};

static uint32_t table[CONTROLLERS * RACK_ENTRY];

static uint64_t finished(const char *call, uint64_t answer) {
    if (rack_refused(answer)) {
        printf("%s is refused: %u\n", call, rack_number(answer));
        exit(1);
    }
    return answer;
}

static uint64_t reset(uint32_t entry) {
    return finished("rack_reset", rack_reset(table, CONTROLLERS * RACK_ENTRY, entry, WINDOW));
}

// Tells the watcher of a BEAT that ends at this tick, if there is one.
static void hear(uint32_t entry, uint32_t tick) {
    if (entry == SILENT && tick >= PERIOD) return;
    for (size_t i = 0; i < sizeof beats / sizeof beats[0]; i++) {
        if (tick % PERIOD == beats[i].end) {
            finished("rack_beat", rack_beat(table, CONTROLLERS * RACK_ENTRY, entry, beats[i].value));
        }
    }
}

static uint32_t look(uint32_t entry) {
    uint64_t answer = finished("rack_look", rack_look(table, CONTROLLERS * RACK_ENTRY, entry));
    printf("  %u %s, count %ld", entry, healths[rack_first(answer)], (long)rack_second(answer) - 2);
    return rack_first(answer);
}

int main(void) {
    uint32_t failed_at = 0;
    for (uint32_t entry = 0; entry < CONTROLLERS; entry++) reset(entry);
    for (uint32_t tick = 0; tick <= 2 * PERIOD; tick++) {
        // Where a beat and a look share a tick, the beat goes first.
        for (uint32_t entry = 0; entry < CONTROLLERS; entry++) hear(entry, tick);
        if (tick % WINDOW != 0) continue;
        printf("tick %3u:", tick);
        if (look(0) == RACK_FAILED) return 1;
        if (look(SILENT) == RACK_FAILED && failed_at == 0) failed_at = tick;
        printf("\n");
    }
    uint64_t again = reset(SILENT);
    printf("controller %d failed at tick %u; reset, it is %s\n", SILENT, failed_at, healths[rack_first(again)]);
    // Its last BEAT was of value 4 and ended at tick 23: the sixth look after it is that of tick 140.
    return failed_at != 140;
}
