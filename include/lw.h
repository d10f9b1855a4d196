/* The proved workbench as a C library: a function for each of the four commands, for films, and for lists of any size. Their contracts are in
   crates/lw_library/src/exports.rt, films.rt, reached.rt and version.rt. The contracts assume that callers obey this file.

   A call gets memory to allocate from and a buffer for its result, `room`. It stores nothing from one call to the next. Successive calls may
   use the same memory. Concurrent calls need memory and buffers of their own. A call calls no other function than memcpy and the like of the
   C library.

   A call also uses its caller's stack: at most 135,656 bytes, measured for the list of four threads with 32 exchanges each. So 256 KiB are
   ample. The limits of a test bound the stack; that 256 KiB suffice is not proved.

   No pointer may be NULL unless its comment allows it, even if it has no bytes: an empty schedule is a pointer to any byte, with length 0.

   cc use.c liblw_library.a */
#ifndef LW_H
#define LW_H

#include <stddef.h>
#include <stdint.h>

#ifdef __cplusplus
extern "C" {
#endif

/* The version that this file declares: 100 * major + minor. A new major version requires changes of callers; a new minor version adds
   functions. */
#define LW_VERSION 100

/* Returns the version of the linked library, in the form of LW_VERSION. */
uint32_t lw_version(void);

/* Memory that a call may use while it runs. `at` is aligned to 16 bytes, and nobody else reads or writes the `size` bytes there during the
   call. Their content before the call does not matter; after it they are the caller's again. If `size` is below 16, `at` may be NULL. If the
   memory is too small, the call returns the line `lw: memory`, with status 4. */
struct lw_memory {
    void *at;
    size_t size;
};

/* What the bytes of a result are. */
enum lw_kind {
    LW_ANSWER = 0,         /* what the program writes to standard output */
    LW_FAULT = 1,          /* the line that the program writes to standard error, without its line end */
    LW_ROOM_TOO_SMALL = 2, /* one of these, but it does not fit into `room`, which is unchanged */
};

/* The result of a call: the program's exit status, the kind of the bytes, and their number. The bytes are at the start of `room`; the rest of
   `room` is unchanged. If the bytes do not fit, `length` is the size that they need. */
struct lw_told {
    uint32_t status;
    uint32_t kind;
    size_t length;
};

/* The protocol of the caches in a replay of an x86 test. */
enum lw_protocol {
    LW_MESI = 0,
    LW_MOESI = 1,
};

/* Writes the report of the test in `text` to `room`, as `lw states` prints it, and the result of the call to `call_result`. `text`, `room` and `call_result`
   are not NULL, even if they have no bytes. They overlap neither each other nor the memory. */
void lw_states(struct lw_memory memory, const uint8_t *text, size_t text_length, uint8_t *room, size_t room_length,
               struct lw_told *call_result);

/* Writes the test's final states, each with a schedule, as `lw schedules` prints them. */
void lw_schedules(struct lw_memory memory, const uint8_t *text, size_t text_length, uint8_t *room, size_t room_length,
                  struct lw_told *call_result);

/* Writes the canonical text of the test, as `lw compile` prints it. A source test is first compiled to x86. */
void lw_compile(struct lw_memory memory, const uint8_t *text, size_t text_length, uint8_t *room, size_t room_length,
                struct lw_told *call_result);

/* Writes the page of the replay of `schedule`, as `lw replay SCHEDULE` prints it. `schedule` is not NULL, even if it has no bytes: NULL is not
   an empty schedule, and there is no replay without a schedule. Any `protocol` other than LW_MESI is MOESI. If the schedule is not UTF-8, the
   call returns the line `lw: read failed`, with status 4. The program prints this line if it cannot read its arguments or its input; only a
   call with a schedule returns it. */
void lw_replay(struct lw_memory memory, const uint8_t *text, size_t text_length, const uint8_t *schedule, size_t schedule_length,
               uint32_t protocol, uint8_t *room, size_t room_length, struct lw_told *call_result);

/* Writes the pages of `lw replay` for all prefixes of the schedule, the shortest first, each followed by an empty line: what the machine does,
   event by event. The arguments and the faults are those of lw_replay, but the status of an answer is 0. */
void lw_film(struct lw_memory memory, const uint8_t *text, size_t text_length, const uint8_t *schedule, size_t schedule_length,
             uint32_t protocol, uint8_t *room, size_t room_length, struct lw_told *call_result);

/* Writes the report of a test of any size, as `beyond --budget BUDGET states` prints it. Within the limits of lists it is that of lw_states. Past
   them it is made by a search. If the search finds more than `budget` states of the machine, the call returns the line `beyond: budget BUDGET`,
   with status 3. A state takes about 60 bytes of memory, and an outcome about 400. */
void lw_reach_states(struct lw_memory memory, const uint8_t *text, size_t text_length, size_t budget, uint8_t *room, size_t room_length,
                     struct lw_told *call_result);

/* Writes the final states of a test of any size, each with a schedule, as `beyond --budget BUDGET schedules` prints them. */
void lw_reach_schedules(struct lw_memory memory, const uint8_t *text, size_t text_length, size_t budget, uint8_t *room, size_t room_length,
                        struct lw_told *call_result);

/* Writes the final states of a test of any size, as `beyond --budget BUDGET marks` prints them: a line for each, which begins with `+ ` if the
   condition's proposition is true in it, and with `- ` otherwise. */
void lw_reach_marks(struct lw_memory memory, const uint8_t *text, size_t text_length, size_t budget, uint8_t *room, size_t room_length,
                    struct lw_told *call_result);

#ifdef __cplusplus
}
#endif

#endif
