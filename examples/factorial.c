// Prepares the factorial of task C under settings of both forms, runs it whole, stops it at every tick and takes it up again, and holds
// each end to that of the task as written. It prints what it found, and exits with 1 at the first call that answers anything else.
#include <stdio.h>
#include <stdlib.h>
#include <string.h>

#include "rack.h"

enum { READ = 3, WRITE = 4, SET = 2, IF = 5, ELSE = 6, WHILE = 7, END = 8, COPY = 0, MINUS = 2, TIMES_VARIABLE = 19, ABOVE = 4 };

// Variable 0 is i and variable 1 is o.
static const uint8_t task[] = {
    READ,  0,              0, 0, 0,  0, 0, 0, 0,  0, 0, 0,  // read i
    IF,    ABOVE,          0, 0, 10, 0, 0, 0, 0,  0, 0, 0,  // if i > 10
    SET,   COPY,           0, 0, 10, 0, 0, 0, 0,  0, 0, 0,  //   i := 10
    SET,   COPY,           1, 0, 1,  0, 0, 0, 0,  0, 0, 0,  //   o := 1
    ELSE,  0,              0, 0, 0,  0, 0, 0, 0,  0, 0, 0,  // else
    SET,   COPY,           1, 0, 1,  0, 0, 0, 0,  0, 0, 0,  //   o := 1
    END,   0,              0, 0, 0,  0, 0, 0, 0,  0, 0, 0,  //
    WHILE, ABOVE,          0, 0, 0,  0, 0, 0, 10, 0, 0, 0,  // while i > 0, at most 10 rounds
    SET,   TIMES_VARIABLE, 1, 1, 0,  0, 0, 0, 0,  0, 0, 0,  //   o := o * i
    SET,   MINUS,          0, 0, 1,  0, 0, 0, 0,  0, 0, 0,  //   i := i - 1
    END,   0,              0, 0, 0,  0, 0, 0, 0,  0, 0, 0,  //
    WRITE, 0,              1, 0, 0,  0, 0, 0, 0,  0, 0, 0,  // write o
};

// SET, READ, WRITE and BEAT take 3 ticks and SAVE 10; every 4th window of 20 has a SAVE; the period is 200.
static const uint8_t settings[RACK_SETTINGS] = {3, 3, 3, 3, 10, 4, 20, 0, 200, 0, 0, 0};

// The same numbers in the wide form, whose last is the ticks of a SET that multiplies.
static const uint8_t wide[RACK_WIDE_SETTINGS] = {3, 0, 3, 0, 3, 0, 3, 0, 10, 0, 4, 0, 20, 0, 0, 0, 200, 0, 0, 0, 3, 0, 0, 0};

struct run {
    struct rack_state state;
    unsigned overran;
};

static const uint32_t inputs[RACK_PORTS] = {12};

static uint64_t finished(const char *call, uint64_t answer) {
    if (rack_refused(answer)) {
        printf("%s is refused: %u\n", call, rack_number(answer));
        exit(1);
    }
    return answer;
}

// The state is words and then bytes, with no gap between them.
static int alike(const struct run *x, const struct run *y) {
    return memcmp(&x->state, &y->state, sizeof x->state) == 0 && x->overran == y->overran;
}

static uint32_t whole(uint8_t form, const uint8_t *file, size_t length, struct run *r) {
    uint64_t end = finished("rack_run", rack_state_run(settings, sizeof settings, form, file, length, &r->state, inputs));
    r->overran = rack_flags(end) & RACK_OVERRAN;
    return rack_first(end);
}

// Stopped at a tick and taken up from the image, or from the start where there is none. Answers the tick that it went on from.
static uint32_t stopped(const uint8_t *file, size_t length, uint32_t stop, struct run *r) {
    const struct rack_state first = r->state;
    uint8_t image[RACK_IMAGE];
    uint64_t at = finished("rack_run_until", rack_state_run_until(settings, sizeof settings, RACK_LAID, file, length, &r->state, inputs,
                                                                  image, stop));
    uint64_t end;
    uint32_t from = 0;
    if (rack_flags(at) & RACK_SAVED) {
        end = finished("rack_resume", rack_state_resume(settings, sizeof settings, RACK_LAID, file, length, &r->state, inputs, image));
        from = image[4] | (uint32_t)image[5] << 8 | (uint32_t)image[6] << 16 | (uint32_t)image[7] << 24;
    } else {
        memcpy(r->state.variables, first.variables, sizeof first.variables);
        end = finished("rack_restart", rack_state_restart(settings, sizeof settings, RACK_LAID, file, length, &r->state, inputs));
    }
    r->overran = rack_flags(end) & RACK_OVERRAN;
    return from;
}

int main(void) {
    static uint8_t laid[RACK_LONGEST];
    uint64_t time = finished("rack_time", rack_time(settings, sizeof settings, RACK_TASK, task, sizeof task));
    uint64_t ready = finished("rack_prepare", rack_prepare(settings, sizeof settings, task, sizeof task, laid, sizeof laid));
    printf("as written %zu bytes, %u ticks; prepared %u bytes, %u ticks\n", sizeof task, rack_first(time), rack_first(ready),
           rack_second(ready));

    static uint8_t again[RACK_LONGEST];
    uint64_t same = finished("rack_prepare", rack_prepare(wide, sizeof wide, task, sizeof task, again, sizeof again));
    if (same != ready || memcmp(again, laid, rack_first(ready)) != 0) return 1;
    printf("settings of %zu and of %zu bytes lay the same file\n", sizeof settings, sizeof wide);

    struct run written = {0}, prepared = {0};
    whole(RACK_TASK, task, sizeof task, &written);
    uint32_t end = whole(RACK_LAID, laid, rack_first(ready), &prepared);
    printf("on input %u port 0 shows %u, as written and prepared\n", inputs[0], prepared.state.levels[0]);
    if (!alike(&written, &prepared)) return 1;

    uint32_t twice = 0;
    for (uint32_t stop = 0; stop < end; stop++) {
        struct run taken_up = {0};
        uint32_t from = stopped(laid, rack_first(ready), stop, &taken_up);
        if (!alike(&written, &taken_up)) return 1;
        if (stop - from > twice) twice = stop - from;
    }
    printf("stopped at each tick from 0 to %u and taken up, it ends alike; at most %u ticks are run twice\n", end - 1, twice);
    return 0;
}
