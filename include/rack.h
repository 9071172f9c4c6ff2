// The rack task preparer, for C11 and C++17. Link with librack.a.
//
// Documents 01 and 02 decide what each call does; README.md has the formats and the refusals in tables. A call ends whatever it is handed.
//
// Pointers: a slice is a pointer and a number of elements. A pointer is not null, also where the number is 0, leads to as many elements,
// and is aligned as its type asks: uint32_t to 4 bytes, uint8_t to any. The buffers of one call do not overlap.
// Threads: there is no global data, and a call keeps nothing and uses no heap. Calls may be made from any threads at once, each with
// buffers of its own.
// Stack: measured on files nested as deep as may be, a call needs up to 18,224 bytes, and rack_prepare 27,536.
// Settings: RACK_SETTINGS bytes or, where a number is wider or a multiply has its own ticks, RACK_WIDE_SETTINGS; any other length is refused
// 6. Equal numbers give every call the same answer and the same bytes in either form. Heartbeats, totals and taking up are as promised where
// a task is prepared, run and taken up under settings of the same numbers. Those of other numbers are not refused: the file is then run as
// its records stand.
//
// A call answers one number.
// Finished: bit 63 is 0. Bits 0 to 23 hold the first value, bits 24 to 55 the second, and bits 56 to 62 the flags: RACK_OVERRAN and
// RACK_SAVED. What a call does not name is 0.
// Refused: bit 63 is 1, bits 56 to 62 hold the refusal's number, and bits 0 to 55 what is returned with it. No byte that was lent is changed.
#ifndef RACK_H
#define RACK_H

#include <stddef.h>
#include <stdint.h>

#ifdef __cplusplus
extern "C" {
#endif

// Raised with every change of a call, a number or a format.
#define RACK_VERSION 4

// The form of a file. Any other number is taken as laid.
enum { RACK_TASK = 0, RACK_EQUALISED = 1, RACK_LAID = 2 };

// The flags of a finished run.
enum { RACK_OVERRAN = 1, RACK_SAVED = 2 };

// The health of a watched controller.
enum { RACK_WAITING = 0, RACK_WELL = 1, RACK_SUSPECT = 2, RACK_FAILED = 3 };

// The numbers of the refusals, and the value returned with each; 0 where none is named.
enum {
    RACK_BAD_LENGTH = 1,     // the length in bytes, 2^56 - 1 for any above that
    RACK_BAD_KIND = 2,       // the record index
    RACK_BAD_FIELD = 3,      // the record index
    RACK_BAD_STRUCTURE = 4,  // the record index, or the record count where a block is open at the end of the file
    RACK_TOO_DEEP = 5,       // the record index
    RACK_BAD_SETTINGS = 6,
    RACK_SHORT_WINDOW = 7,
    RACK_OVER_PERIOD = 8,
    RACK_NO_ROOM = 9,
    RACK_BAD_BUFFERS = 10,
    RACK_BAD_IMAGE = 11,
    RACK_LATE_STOP = 12,
    RACK_BAD_ENTRY = 13
};

// The bytes of settings, which have the ticks of SET, READ, WRITE, BEAT and SAVE, the spacing K, the window H and the period P. In
// RACK_SETTINGS they are six numbers of one byte, one of two bytes and one of four; in RACK_WIDE_SETTINGS six of two bytes and two of four.
// The last four bytes of RACK_WIDE_SETTINGS are the ticks of a SET that multiplies, by a value or by a variable; RACK_SETTINGS have no such
// number, and a multiply takes SET's ticks there. Each number is at least 1; H and P are at most 1,000,000, and a multiply at most 65,535.
enum { RACK_SETTINGS = 12, RACK_WIDE_SETTINGS = 24 };

// Lengths that a call asks for, in elements.
enum { RACK_VARIABLES = 16, RACK_PORTS = 8, RACK_IMAGE = 72 };

// The bytes of a record, the most records of a task and of any file, and the bytes of the longest file.
enum { RACK_RECORD = 12, RACK_TASK_RECORDS = 256, RACK_RECORDS = 5461, RACK_LONGEST = 65532 };

// The numbers of an entry of a watcher's table, and the most entries.
enum { RACK_ENTRY = 3, RACK_ENTRIES = 32 };

// The parts of an answer. Ask rack_refused first: a refused one has a number and a value, a finished one first, second and flags.
static inline int rack_refused(uint64_t answer) { return (int)(answer >> 63); }
static inline unsigned rack_number(uint64_t answer) { return (unsigned)(answer >> 56 & 127); }
static inline uint64_t rack_value(uint64_t answer) { return answer & 0xffffffffffffff; }
static inline uint32_t rack_first(uint64_t answer) { return (uint32_t)(answer & 0xffffff); }
static inline uint32_t rack_second(uint64_t answer) { return (uint32_t)(answer >> 24 & 0xffffffff); }
static inline unsigned rack_flags(uint64_t answer) { return rack_refused(answer) ? 0 : (unsigned)(answer >> 56 & 127); }

// The time of a file. First value: the time in ticks. Refusals 6, 1 to 5 and 8.
uint64_t rack_time(const uint8_t *settings, size_t settings_length, uint8_t form, const uint8_t *file, size_t file_length);

// Writes the equalised task over the front of out; what follows it there stays. First value: the bytes written, and so many are to be
// handed on, not out_length; second: the time in ticks. Refusals 6, 1 to 5, 8 and 9.
uint64_t rack_equalise(const uint8_t *settings, size_t settings_length, const uint8_t *task, size_t task_length, uint8_t *out,
                       size_t out_length);

// Lays out an equalised file over the front of out; what follows it there stays. First value: the bytes written, and so many are to be
// run, not out_length; second: the total in ticks. Refusals 6, 1 to 5, 7, 8 and 9.
uint64_t rack_lay_out(const uint8_t *settings, size_t settings_length, const uint8_t *equalised, size_t equalised_length, uint8_t *out,
                      size_t out_length);

// Prepares a task: equalises it into a buffer of the call's own, and lays that out over the front of out; what follows it there stays.
// First value: the bytes written, and so many are to be run, not out_length; second: the total in ticks. Refusals 6, 1 to 5, 7, 8 and 9, those
// of equalising before those of laying out: a task whose own time is above the period is refused 8 also where the window is too short. 9 is
// the laid file's alone.
uint64_t rack_prepare(const uint8_t *settings, size_t settings_length, const uint8_t *task, size_t task_length, uint8_t *out,
                      size_t out_length);

// Runs a file of any form from its first record, with levels and marks set to 0 first. variables, levels and marks show how it ended: a
// port's level is the last that was written there, and its mark 1; where the mark is 0, the port has none.
// First value: the end tick; flag RACK_OVERRAN. Refusals 6, 1 to 5, 8 and 10.
uint64_t rack_run(const uint8_t *settings, size_t settings_length, uint8_t form, const uint8_t *file, size_t file_length,
                  uint32_t *variables, size_t variables_length, const uint32_t *inputs, size_t inputs_length, uint32_t *levels,
                  size_t levels_length, uint8_t *marks, size_t marks_length);

// As rack_run, stopped at a tick before its end. variables, levels and marks show the state after the last step done, and image the last
// finished checkpoint. First value: the stop tick; flag RACK_SAVED where there is an image, without which the image buffer is untouched.
// Refusals 6, 1 to 5, 8, 10 and 12.
// rack_restart needs the first variables: keep a copy, since this call writes over them.
uint64_t rack_run_until(const uint8_t *settings, size_t settings_length, uint8_t form, const uint8_t *file, size_t file_length,
                        uint32_t *variables, size_t variables_length, const uint32_t *inputs, size_t inputs_length, uint32_t *levels,
                        size_t levels_length, uint8_t *marks, size_t marks_length, uint8_t *image, size_t image_length, uint32_t stop);

// Takes a stopped run up from its image, with the same settings, file and inputs and with levels and marks as the stop left them. Whatever
// variables held before, they begin as the image has them. First value: the end tick, counted on from the image's; flag RACK_OVERRAN.
// Refusals 6, 1 to 5, 8, 10 and 11.
uint64_t rack_resume(const uint8_t *settings, size_t settings_length, uint8_t form, const uint8_t *file, size_t file_length,
                     uint32_t *variables, size_t variables_length, const uint32_t *inputs, size_t inputs_length, uint32_t *levels,
                     size_t levels_length, uint8_t *marks, size_t marks_length, const uint8_t *image, size_t image_length);

// Takes a stopped run up where no checkpoint was finished: from the first record and the first variables, with the same settings, file and
// inputs and with levels and marks as the stop left them. First value: the end tick; flag RACK_OVERRAN. Refusals 6, 1 to 5, 8 and 10.
uint64_t rack_restart(const uint8_t *settings, size_t settings_length, uint8_t form, const uint8_t *file, size_t file_length,
                      uint32_t *variables, size_t variables_length, const uint32_t *inputs, size_t inputs_length, uint32_t *levels,
                      size_t levels_length, uint8_t *marks, size_t marks_length);

// A spare controller watches others by a table of at most RACK_ENTRIES entries, RACK_ENTRY numbers each: the count + 2, the window, and 1 while
// the entry waits for a beat. Any number but 0 counts as waiting there, and all others are taken as they stand. Reset each entry of a new
// table: three zeros are an entry that has failed, and a fresh one is 2, 0, 1. table_length is in numbers.
// The four calls answer what the entry is afterwards, and leave all others alone. First value: its health; second: its count + 2. Once an
// entry no longer waits, its count tells its health: well from 0 on, suspect at -1, failed at -2, and that holds until it is reset.
// Refusal 13: a length that is no multiple of RACK_ENTRY, more than RACK_ENTRIES entries, an entry that is not in the table, a window of 0,
// or a value above 1,000,000.

// A BEAT of this value has ended: the entry no longer waits, and its count is the value. One that has failed stays so. Where a beat and a look
// share a tick, this call goes first.
uint64_t rack_beat(uint32_t *table, size_t table_length, uint32_t entry, uint32_t value);

// A window has passed: takes 1 off the count of an entry that neither waits nor has failed.
uint64_t rack_look(uint32_t *table, size_t table_length, uint32_t entry);

// Gives the entry a window, that of the file which its controller runs, and the count 0; it waits for its next beat.
uint64_t rack_reset(uint32_t *table, size_t table_length, uint32_t entry, uint32_t window);

// Changes nothing.
uint64_t rack_status(const uint32_t *table, size_t table_length, uint32_t entry);

// What a run is lent and leaves. A port's level counts where its mark is 1.
struct rack_state {
    uint32_t variables[RACK_VARIABLES], levels[RACK_PORTS];
    uint8_t marks[RACK_PORTS];
};

// The calls above on a state, with the lengths that they ask for: RACK_PORTS inputs, and an image of RACK_IMAGE bytes.
static inline uint64_t rack_state_run(const uint8_t *settings, size_t settings_length, uint8_t form, const uint8_t *file,
                                      size_t file_length, struct rack_state *state, const uint32_t *inputs) {
    return rack_run(settings, settings_length, form, file, file_length, state->variables, RACK_VARIABLES, inputs, RACK_PORTS,
                    state->levels, RACK_PORTS, state->marks, RACK_PORTS);
}

static inline uint64_t rack_state_run_until(const uint8_t *settings, size_t settings_length, uint8_t form, const uint8_t *file,
                                            size_t file_length, struct rack_state *state, const uint32_t *inputs, uint8_t *image,
                                            uint32_t stop) {
    return rack_run_until(settings, settings_length, form, file, file_length, state->variables, RACK_VARIABLES, inputs, RACK_PORTS,
                          state->levels, RACK_PORTS, state->marks, RACK_PORTS, image, RACK_IMAGE, stop);
}

static inline uint64_t rack_state_resume(const uint8_t *settings, size_t settings_length, uint8_t form, const uint8_t *file,
                                         size_t file_length, struct rack_state *state, const uint32_t *inputs, const uint8_t *image) {
    return rack_resume(settings, settings_length, form, file, file_length, state->variables, RACK_VARIABLES, inputs, RACK_PORTS,
                       state->levels, RACK_PORTS, state->marks, RACK_PORTS, image, RACK_IMAGE);
}

static inline uint64_t rack_state_restart(const uint8_t *settings, size_t settings_length, uint8_t form, const uint8_t *file,
                                          size_t file_length, struct rack_state *state, const uint32_t *inputs) {
    return rack_restart(settings, settings_length, form, file, file_length, state->variables, RACK_VARIABLES, inputs, RACK_PORTS,
                        state->levels, RACK_PORTS, state->marks, RACK_PORTS);
}

#ifdef __cplusplus
}
#endif

#endif
