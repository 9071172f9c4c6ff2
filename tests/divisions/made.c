// made TASK SETTINGS ..: lays each task out one instruction at a time, by rack_lay_out and by rack_prepare, under its settings and under
// others, and looks at the divisions on the way. It ends with 0 where each call that lays a task makes exactly one, by the window, whose
// quotient is the last BEAT's value, each call that refuses makes none, and there are calls of both kinds. For Linux on x86-64.
#define _GNU_SOURCE
#include <signal.h>
#include <stdio.h>
#include <stdlib.h>
#include <string.h>
#include <ucontext.h>
#include <x86intrin.h>

#include "rack.h"

enum { TRAP_FLAG = 0x100 };

typedef uint64_t laying(const uint8_t *, size_t, const uint8_t *, size_t, uint8_t *, size_t);

struct settings {
    size_t length;
    uint8_t bytes[RACK_WIDE_SETTINGS];
};

// What was stepped over, and the numbers of the last division; mask is 0, or while a division is stepped over the ones of its width.
static volatile unsigned long instructions, divisions;
static volatile uint64_t mask, dividend, quotient, rest;

static unsigned laid, refused;

// The mask of a div or idiv, or 0 for any other instruction: F6 or F7 after the prefixes, and 6 or 7 in the middle of the next byte.
static uint64_t division(const uint8_t *code) {
    uint64_t wide = UINT32_MAX;
    for (; (*code & 0xf0) == 0x40 || (*code && strchr("\x26\x2e\x36\x3e\x64\x65\x66\x67\xf2\xf3", *code)); code++)
        if ((*code & 0xf8) == 0x48) wide = UINT64_MAX;
    return (*code & 0xfe) == 0xf6 && (code[1] & 0x30) == 0x30 ? wide : 0;
}

static void before_instruction(int signal, siginfo_t *info, void *context) {
    const greg_t *registers = ((ucontext_t *)context)->uc_mcontext.gregs;
    (void)signal, (void)info;
    instructions++;
    if (mask) {
        quotient = (uint64_t)registers[REG_RAX] & mask;
        rest = (uint64_t)registers[REG_RDX] & mask;
    }
    mask = division((const uint8_t *)registers[REG_RIP]);
    if (!mask) return;
    divisions++;
    dividend = (uint64_t)registers[REG_RAX] & mask;
}

static void fail(const char *name, const char *what) {
    printf("%s: %s\n", name, what);
    exit(1);
}

static uint32_t number(const uint8_t *bytes, int count) { return count ? *bytes + 256 * number(bytes + 1, count - 1) : 0; }

static void put_number(uint8_t *bytes, int count, uint32_t n) {
    for (int i = 0; i < count; i++) bytes[i] = (uint8_t)(n >> 8 * i);
}

static uint32_t window(const struct settings *s) {
    return s->length == RACK_SETTINGS ? number(s->bytes + 6, 2) : number(s->bytes + 12, 4);
}

// The same settings, but for a spacing of 3 windows that are one tick longer.
static struct settings varied(struct settings s) {
    int narrow = s.length == RACK_SETTINGS;
    put_number(s.bytes + (narrow ? 5 : 10), narrow ? 1 : 2, 3);
    put_number(s.bytes + (narrow ? 6 : 12), narrow ? 2 : 4, window(&s) + 1);
    return s;
}

// One call with so much room; the bytes laid, 0 where it refused.
static size_t step(const char *name, laying *lay, const struct settings *s, const uint8_t *file, size_t length, size_t room) {
    static uint8_t out[RACK_LONGEST];
    unsigned long before = instructions;
    divisions = 0;
    __writeeflags(__readeflags() | TRAP_FLAG);
    uint64_t answer = lay(s->bytes, s->length, file, length, out, room);
    __writeeflags(__readeflags() & ~(unsigned long long)TRAP_FLAG);
    if (instructions == before) fail(name, "nothing was stepped over: this machine has no trap flag");
    if (rack_refused(answer)) {
        if (divisions) fail(name, "refused, with a division");
        refused++;
        return 0;
    }
    if (divisions != 1) fail(name, divisions ? "laid with more than one division" : "laid without a division");
    if (quotient != number(out + rack_first(answer) - 8, 4)) fail(name, "the quotient is not the last BEAT's value");
    // A quotient of 0 would tell nothing of the divisor.
    if (!quotient || quotient * window(s) + rest != dividend) fail(name, "the division is not by the window");
    laid++;
    return rack_first(answer);
}

// Once with room for all, and once with too little, by a byte.
static void step_twice(const char *name, laying *lay, const struct settings *s, const uint8_t *file, size_t length) {
    size_t bytes = step(name, lay, s, file, length, RACK_LONGEST);
    if (bytes) step(name, lay, s, file, length, bytes - 1);
}

static size_t load(const char *name, uint8_t *bytes, size_t most) {
    FILE *file = fopen(name, "rb");
    size_t length = file ? fread(bytes, 1, most, file) : 0;
    if (!file || ferror(file) || fgetc(file) != EOF) fail(name, "cannot be read");
    fclose(file);
    return length;
}

static void step_both(const char *name, const struct settings *s, const uint8_t *task, size_t length) {
    static uint8_t equalised[RACK_LONGEST];
    uint64_t ready = rack_equalise(s->bytes, s->length, task, length, equalised, sizeof equalised);
    if (rack_refused(ready)) fail(name, "equalising is refused");
    step_twice(name, rack_lay_out, s, equalised, rack_first(ready));
    step_twice(name, rack_prepare, s, task, length);
}

int main(int count, char **names) {
    struct sigaction action = {.sa_sigaction = before_instruction, .sa_flags = SA_SIGINFO};
    sigaction(SIGTRAP, &action, NULL);
    for (int i = 1; i + 1 < count; i += 2) {
        static uint8_t task[RACK_LONGEST];
        size_t length = load(names[i], task, sizeof task);
        struct settings own;
        own.length = load(names[i + 1], own.bytes, sizeof own.bytes);
        struct settings other = varied(own);
        step_both(names[i], &own, task, length);
        step_both(names[i], &other, task, length);
    }
    printf("%u calls laid a task and made one division, %u refused and made none; %lu instructions\n", laid, refused, instructions);
    return !(laid && refused);
}
