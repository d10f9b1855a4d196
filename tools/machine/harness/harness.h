/* What the parts of the harness share. The harness runs one litmus test on this processor, many times. tools/machine/assembly.py writes the
   test's threads, which are linked with it, and tools/machine/plans.py writes the plan, which it reads from standard input.

   An instance is one run of the test, on locations of its own, each in a cache line of its own. A batch is a number of instances with one
   recipe. All threads meet before and after a batch. */
#ifndef HARNESS_H
#define HARNESS_H

#include <stdint.h>

#define LINE 64
#define REGISTERS 6
#define MAX_THREADS 4
#define MAX_LOCATIONS 8
#define MAX_SITES (MAX_THREADS * REGISTERS + MAX_LOCATIONS)
#define MAX_BALLAST 8
#define LED_PART 16 /* A batch under the trap flag has this part of the instances of others. */
/* The cycles that a thread waits for another within a batch: on a busy machine the other may have no processor, or it has jumped over what is
   waited for. */
#define MAX_WAIT 200000
#define SPINS 20000 /* before a thread that waits gives its processor away */

/* The code of a thread, as assembly.py writes it: plainly, and with the trap flag set before the test's first instruction. `begin` and `end`
   are the bounds of the test's instructions in the second. */
struct thread_code {
    void (*run)(char *const *at, uint32_t *registers);
    void (*run_with_traps)(char *const *at, uint32_t *registers);
    const char *begin, *end;
};
extern const struct thread_code lw_threads[];

/* How threads come together at an instance: not at all, by a flag of the instance, at a time of the time-stamp counter, or by any of these. */
enum sync { SYNC_NONE, SYNC_FLAG, SYNC_TIME, SYNC_MIXED };
/* What a thread does with a line before an instance, or one of these at random. */
enum prepare { NOTHING, LOAD, OWN, FLUSH, PREPARATIONS };
/* What a recipe is: a race, a race with halts, or one that a schedule leads. */
enum kind { RACE, HALTS, LED };

struct knobs {
    int sync, prepare, ballast, delay, stride, learn, move, halts, schedules, light, pin;
};
/* A part of a schedule: so many instructions of one thread. */
struct piece {
    int thread, count;
};
struct script {
    int count;
    struct piece *pieces;
};
/* A register of a thread, or a location if the thread is -1. */
struct site {
    int thread, index;
};
struct plan {
    int threads, locations, sites, listed, scripts, placements;
    uint32_t first_words[MAX_LOCATIONS], first_registers[MAX_THREADS][REGISTERS];
    int lengths[MAX_THREADS];
    struct site site[MAX_SITES];
    uint32_t *states;                /* the listed states, one after another */
    struct script *script;
    int (*placement)[MAX_THREADS]; /* processors for all threads */
    struct knobs knobs;
    int has_clock, is_scarce, until_complete;
    uint32_t instances; /* of a batch, a power of 2 */
    uint64_t runs;      /* 0 if they are not limited */
    double seconds;
};
void read_plan(struct plan *plan);

/* How the instances of a batch are run. */
struct recipe {
    uint8_t kind, sync;           /* of the enums of these names */
    uint8_t owner[MAX_LOCATIONS]; /* which thread writes the first words */
    uint8_t prepare[MAX_THREADS][MAX_LOCATIONS];
    uint8_t ballast[MAX_THREADS]; /* stores to flushed lines before the test's: it waits after them in the store buffer */
    uint8_t halts[MAX_THREADS];
    int16_t halt_at[MAX_THREADS]; /* the instruction before which a thread halts first, or -1 for any */
    uint32_t halt_for;             /* cycles at most */
    uint32_t delay[MAX_THREADS], jitter; /* cycles that a thread waits before an instance, and a mask of random ones that are added */
    int script;                          /* the index of the script that leads the threads, or -1 */
};
#define POOL 64
/* The recipes that showed new or rare states, and what the next one is drawn from. */
struct cookbook {
    const struct plan *plan;
    int has_clock, has_traps, next_script;
    uint64_t random;
    struct recipe pool[POOL];
    double worth[POOL]; /* of each recipe of the pool; 0 if its place is free */
};
void draw_recipe(struct cookbook *book, struct recipe *recipe);
void learn(struct cookbook *book, const struct recipe *recipe, double worth);

/* A state that a thread has counted: how often, after how many seconds first, and by which kind of recipe. */
struct entry {
    uint64_t count;
    double first;
    int kind;
    uint32_t words[MAX_SITES];
};
/* The states that one thread has counted, by a hash of their words. */
struct table {
    struct entry *entries;
    uint32_t filled;
    int is_full;
};
/* The listed states: each slot has the index of one, counted from 1, or 0; `seen` says of each whether some thread has counted it. */
struct listing {
    const struct plan *plan;
    int *slots;
    unsigned char *seen;
    int seen_count;
};
void make_listing(struct listing *listing, const struct plan *plan);
void make_table(struct table *table);
/* Counts a state, and returns what that is worth. */
double count_state(struct table *table, struct listing *listing, const uint32_t *words, double now, int kind);
void print_table(const struct table *table, int sites);

/* The halts of a thread under the trap flag: before which instruction it halts first, how often, and for how many cycles at most. */
struct halt {
    int first, count;
    uint32_t most;
    uint64_t random;
};
/* The script that leads a thread under the trap flag, the piece of it that is due, and how many cycles the thread waits after its last piece. */
struct lead {
    const struct script *script;
    volatile int *turn;
    uint64_t wait;
};
enum traps { TRAPS_UNUSED, TRAPS_WORK, TRAPS_TRACED, TRAPS_CAUGHT };
enum traps try_traps(const struct plan *plan);
void run_with_halts(int thread, const struct plan *plan, char *const *at, uint32_t *registers, const struct halt *halt);
void run_led(int thread, const struct plan *plan, char *const *at, uint32_t *registers, const struct lead *lead);

/* The facts on a run that main.c prints. */
struct summary {
    uint64_t runs, batches;
    double seconds;
    int clocks_differ, is_full, is_pinned;
    enum traps traps;
};
void run_batches(const struct plan *plan, struct summary *summary);

/* What all parts use. */
char *room(uint64_t bytes, int is_filled);
double seconds_now(void);
static inline uint64_t cycles_now(void)
{
    return __builtin_ia32_rdtsc();
}
static inline uint64_t next_random(uint64_t *s)
{
    *s ^= *s << 13;
    *s ^= *s >> 7;
    *s ^= *s << 17;
    return *s * 0x2545F4914F6CDD1Dull;
}

#endif
