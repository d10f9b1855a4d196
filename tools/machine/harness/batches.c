/* The threads of a run, and their batches. Between batches all threads meet at barriers of locked instructions, so all stores have left the
   store buffers when final words are read. */
#define _GNU_SOURCE
#include "harness.h"
#include <pthread.h>
#include <sched.h>
#include <stdio.h>
#include <stdlib.h>
#include <string.h>

#define BATCHES_OF_PLACEMENT 64
#define START_AFTER 4000 /* cycles from the last barrier to the first instance */

/* An int in a cache line of its own. */
struct line {
    volatile int value;
    char pad[LINE - sizeof(int)];
};
/* What the threads of a run share. */
struct run {
    const struct plan *plan;
    struct summary *summary;
    struct line here, sense; /* of the barrier */
    struct line *flags;      /* of each instance: it may begin */
    struct line *turns;      /* of each instance that a schedule leads: the piece that is due */
    char *cells[MAX_LOCATIONS];
    uint32_t *registers[MAX_THREADS];
    struct table tables[MAX_THREADS];
    struct listing listing;
    struct {
        double worth;  /* of the states that the thread has counted in the last batch */
        uint64_t late; /* instances that it began late */
        char pad[LINE - 2 * 8];
    } batch[MAX_THREADS];
    struct cookbook book;
    double started, period, period_with_traps;
    volatile int stops, placement;
    /* of the batch that is run */
    struct recipe recipe;
    uint32_t offsets[MAX_LOCATIONS], step;
    volatile uint64_t begin;
    volatile uint64_t clock;
};
/* What one thread of a run has for itself. */
struct worker {
    struct run *run;
    int thread, sense, placement;
    uint64_t random;
    char *ballast;
};

/* The barrier: waits until all threads have come here. */
static void meet(struct worker *self)
{
    struct run *run = self->run;
    self->sense = !self->sense;
    if (__atomic_add_fetch(&run->here.value, 1, __ATOMIC_SEQ_CST) == run->plan->threads) {
        run->here.value = 0;
        __atomic_store_n(&run->sense.value, self->sense, __ATOMIC_SEQ_CST);
    } else {
        for (int spins = 0; __atomic_load_n(&run->sense.value, __ATOMIC_SEQ_CST) != self->sense; spins++) {
            if (run->plan->is_scarce || spins > SPINS)
                sched_yield();
            else
                __builtin_ia32_pause();
        }
    }
    __atomic_thread_fence(__ATOMIC_SEQ_CST);
}

/* Returns the time-stamp counter, after all earlier instructions and before all later ones. */
static uint64_t clock_now(void)
{
    __builtin_ia32_lfence();
    uint64_t now = cycles_now();
    __builtin_ia32_lfence();
    return now;
}

/* Returns the number of instances of the batch that is run: fewer under the trap flag, which is slow. */
static uint32_t instances_of(const struct run *run)
{
    return run->recipe.kind == RACE ? run->plan->instances : run->plan->instances / LED_PART;
}

/* The line of a location in an instance. Steps are odd, so that each instance has a line of its own; offsets keep locations of one instance off
   the same place in their pages. */
static inline char *cell_of(const struct run *run, int location, uint32_t instance)
{
    uint32_t mask = run->plan->instances - 1;
    return run->cells[location] + (uint64_t)((instance * run->step + run->offsets[location]) & mask) * LINE;
}

/* Lets the period grow if many instances begin late, and shrink if few do. */
static void tune(struct run *run)
{
    const struct recipe *recipe = &run->recipe;
    uint64_t late = 0;
    for (int t = 0; t < run->plan->threads; t++)
        late += run->batch[t].late;
    double share = (double)late / ((double)instances_of(run) * run->plan->threads);
    if (recipe->kind != RACE) {
        if (share > 0.3 && run->period_with_traps < 200000)
            run->period_with_traps *= 1.1;
        else if (share < 0.1 && run->period_with_traps > 5000)
            run->period_with_traps *= 0.97;
    } else if (recipe->sync == SYNC_TIME) {
        if (share > 0.15 && run->period < 8000)
            run->period *= 1.1;
        else if (share < 0.05 && run->period > 200)
            run->period *= 0.97;
    }
}

/* What the first thread does before a batch, while the others wait. */
static void begin_batch(struct run *run)
{
    const struct plan *plan = run->plan;
    struct summary *summary = run->summary;
    int is_complete = plan->until_complete && run->listing.seen_count == plan->listed;
    if (seconds_now() - run->started > plan->seconds || (plan->runs && summary->runs >= plan->runs) || is_complete) {
        run->stops = 1;
        return;
    }
    if (summary->batches) {
        double worth = 0;
        for (int t = 0; t < plan->threads; t++)
            worth += run->batch[t].worth;
        if (plan->knobs.learn)
            learn(&run->book, &run->recipe, worth);
        tune(run);
    }
    draw_recipe(&run->book, &run->recipe);
    uint64_t random = next_random(&run->book.random);
    run->step = plan->knobs.stride ? (uint32_t)plan->knobs.stride | 1 : (uint32_t)random | 1;
    for (int k = 0; k < plan->locations; k++)
        run->offsets[k] = (uint32_t)(next_random(&run->book.random) >> 20);
    if (plan->knobs.move && summary->batches && summary->batches % BATCHES_OF_PLACEMENT == 0)
        run->placement = (int)(next_random(&run->book.random) % (uint64_t)plan->placements);
}

/* Looks whether the time-stamp counters of all processors agree: a thread's value lies between two of the first thread. */
static void compare_clocks(struct worker *self)
{
    struct run *run = self->run;
    for (int other = 1; other < run->plan->threads; other++) {
        uint64_t before = 0;
        if (self->thread == 0)
            before = clock_now();
        meet(self);
        if (self->thread == other)
            run->clock = clock_now();
        meet(self);
        if (self->thread == 0 && (run->clock < before || run->clock > clock_now())) {
            run->book.has_clock = 0;
            run->summary->clocks_differ = 1;
            run->recipe.sync = run->recipe.sync == SYNC_TIME ? SYNC_FLAG : run->recipe.sync;
        }
        meet(self);
    }
}

/* Moves the thread to its processor, if it has another than before. */
static void follow_placement(struct worker *self)
{
    struct run *run = self->run;
    if (self->placement == run->placement)
        return;
    self->placement = run->placement;
    if (run->plan->knobs.pin && !run->plan->is_scarce) {
        cpu_set_t set;
        CPU_ZERO(&set);
        CPU_SET((size_t)run->plan->placement[self->placement][self->thread], &set);
        if (sched_setaffinity(0, sizeof set, &set))
            run->summary->is_pinned = 0;
    }
    compare_clocks(self);
}

static void write_first_words(const struct worker *self)
{
    const struct run *run = self->run;
    for (int k = 0; k < run->plan->locations; k++)
        for (uint32_t i = 0; run->recipe.owner[k] == self->thread && i < run->plan->instances; i++)
            *(volatile uint32_t *)(run->cells[k] + (uint64_t)i * LINE) = run->plan->first_words[k];
    if (run->recipe.kind == LED && self->thread == 0)
        for (uint32_t i = 0; i < instances_of(run); i++)
            run->turns[i].value = 0;
    if (run->recipe.sync == SYNC_FLAG)
        for (uint32_t i = (uint32_t)self->thread; i < instances_of(run); i += (uint32_t)run->plan->threads)
            run->flags[i].value = 0;
}

static inline void prepare_line(int how, char *at)
{
    if (how == LOAD)
        (void)*(volatile uint32_t *)at;
    else if (how == OWN)
        __asm__ volatile("prefetchw (%0)" ::"r"(at));
    else if (how == FLUSH)
        __builtin_ia32_clflush(at);
}

static inline void prepare_lines(const struct worker *self, const struct recipe *recipe, char *const *at, char *own, uint64_t dice)
{
    for (int k = 0; k < self->run->plan->locations; k++) {
        int how = recipe->prepare[self->thread][k];
        prepare_line(how == PREPARATIONS ? (int)(dice & 3) : how, at[k]);
        dice >>= 2;
    }
    for (int b = 0; b < recipe->ballast[self->thread]; b++)
        __builtin_ia32_clflush(own + b * LINE);
}

static inline void wait_until(uint64_t when, int yields)
{
    while (cycles_now() < when)
        if (yields)
            sched_yield();
}

static inline void wait_for_flag(const volatile int *flag, int yields)
{
    uint64_t begin = cycles_now();
    for (int spins = 0; !*flag && cycles_now() - begin < MAX_WAIT; spins++)
        if (yields || spins > SPINS)
            sched_yield();
}

/* Waits for the start of an instance, and then for so many cycles. Returns whether the thread comes late. */
static inline int wait_for_start(const struct worker *self, const struct recipe *recipe, uint32_t i, uint64_t when, uint64_t wait)
{
    const struct run *run = self->run;
    int yields = run->plan->is_scarce;
    if (recipe->sync == SYNC_TIME) {
        int is_late = cycles_now() > when + wait;
        wait_until(when + wait, yields);
        return is_late;
    }
    if (recipe->sync == SYNC_FLAG) {
        if (i % (uint32_t)run->plan->threads == (uint32_t)self->thread)
            run->flags[i].value = 1;
        wait_for_flag(&run->flags[i].value, yields);
    }
    if (wait)
        wait_until(cycles_now() + wait, yields);
    return 0;
}

static inline void run_instance(const struct worker *self, const struct recipe *recipe, uint32_t i, char *const *at, uint64_t dice, uint64_t wait)
{
    const struct run *run = self->run;
    int t = self->thread;
    uint32_t *registers = run->registers[t] + i * REGISTERS;
    if (recipe->kind == LED) {
        struct lead lead = {&run->plan->script[recipe->script], &run->turns[i].value, wait};
        run_led(t, run->plan, at, registers, &lead);
    } else if (recipe->kind == HALTS && recipe->halts[t]) {
        struct halt halt = {recipe->halt_at[t], recipe->halts[t], recipe->halt_for, dice};
        run_with_halts(t, run->plan, at, registers, &halt);
    } else {
        lw_threads[t].run(at, registers);
    }
}

static void run_instances(struct worker *self)
{
    struct run *run = self->run;
    const struct recipe recipe = run->recipe;
    const uint32_t count = instances_of(run);
    const int t = self->thread, locations = run->plan->locations;
    const uint64_t begin = run->begin, period = (uint64_t)(recipe.kind == RACE ? run->period : run->period_with_traps);
    uint64_t late = 0;
    char *at[MAX_LOCATIONS];
    for (uint32_t i = 0; i < count; i++) {
        uint64_t dice = next_random(&self->random), wait = recipe.delay[t] + (next_random(&self->random) >> 40 & recipe.jitter);
        char *own = self->ballast + (i & 7) * MAX_BALLAST * LINE;
        for (int k = 0; k < locations; k++)
            at[k] = cell_of(run, k, i);
        prepare_lines(self, &recipe, at, own, dice);
        late += (uint64_t)wait_for_start(self, &recipe, i, begin + i * period, recipe.kind == LED ? 0 : wait);
        for (int b = 0; b < recipe.ballast[t]; b++)
            *(volatile uint32_t *)(own + b * LINE) = i;
        run_instance(self, &recipe, i, at, dice, wait);
        if (run->plan->is_scarce && (dice & 15) == 0)
            sched_yield();
    }
    run->batch[t].late = late;
}

/* Counts the final states of this thread's share of the instances. */
static void count_instances(const struct worker *self)
{
    struct run *run = self->run;
    const struct plan *plan = run->plan;
    double worth = 0, now = seconds_now() - run->started;
    uint32_t words[MAX_SITES];
    for (uint32_t i = (uint32_t)self->thread; i < instances_of(run); i += (uint32_t)plan->threads) {
        for (int k = 0; k < plan->sites; k++) {
            const struct site *site = &plan->site[k];
            words[k] = site->thread < 0 ? *(volatile uint32_t *)cell_of(run, site->index, i)
                                        : run->registers[site->thread][i * REGISTERS + (uint32_t)site->index];
        }
        worth += count_state(&run->tables[self->thread], &run->listing, words, now, run->recipe.kind);
    }
    run->batch[self->thread].worth = worth;
}

static void *work(void *argument)
{
    struct worker *self = argument;
    struct run *run = self->run;
    for (;;) {
        if (self->thread == 0)
            begin_batch(run);
        meet(self);
        if (run->stops)
            return NULL;
        follow_placement(self);
        write_first_words(self);
        meet(self);
        if (self->thread == 0)
            run->begin = cycles_now() + START_AFTER;
        meet(self);
        run_instances(self);
        meet(self);
        count_instances(self);
        if (self->thread == 0) {
            run->summary->batches++;
            run->summary->runs += instances_of(run);
        }
        meet(self);
    }
}

/* Memory for a run. Each register of each instance has its first word: a thread writes only those that it uses. */
static struct run *make_run(const struct plan *plan, struct summary *summary)
{
    struct run *run = (struct run *)room(sizeof *run, 1);
    run->plan = plan;
    run->summary = summary;
    run->period = 1000;
    run->period_with_traps = 20000;
    run->book.plan = plan;
    run->book.random = 88172645463325252ull ^ cycles_now();
    run->book.has_clock = plan->has_clock;
    run->book.has_traps = summary->traps == TRAPS_WORK;
    run->flags = (struct line *)room((uint64_t)plan->instances * LINE, 1);
    run->turns = (struct line *)room((uint64_t)plan->instances * LINE, 1);
    make_listing(&run->listing, plan);
    for (int k = 0; k < plan->locations; k++)
        run->cells[k] = room((uint64_t)plan->instances * LINE, 1);
    for (int t = 0; t < plan->threads; t++) {
        run->registers[t] = (uint32_t *)room((uint64_t)plan->instances * REGISTERS * 4, 1);
        for (uint32_t i = 0; i < plan->instances; i++)
            memcpy(run->registers[t] + i * REGISTERS, plan->first_registers[t], REGISTERS * 4);
        make_table(&run->tables[t]);
    }
    return run;
}

void run_batches(const struct plan *plan, struct summary *summary)
{
    struct run *run = make_run(plan, summary);
    struct worker workers[MAX_THREADS];
    pthread_t ids[MAX_THREADS];
    summary->is_pinned = plan->knobs.pin && !plan->is_scarce;
    run->started = seconds_now();
    for (int t = 0; t < plan->threads; t++) {
        uint64_t random = 0x9E3779B97F4A7C15ull * (uint64_t)(t + 1) ^ cycles_now();
        workers[t] = (struct worker){run, t, 0, -1, random | 1, room(8 * MAX_BALLAST * LINE, 1)};
        if (pthread_create(&ids[t], NULL, work, &workers[t])) {
            fprintf(stderr, "harness: a thread does not start\n");
            exit(4);
        }
    }
    for (int t = 0; t < plan->threads; t++)
        pthread_join(ids[t], NULL);
    summary->seconds = seconds_now() - run->started;
    for (int t = 0; t < plan->threads; t++) {
        summary->is_full |= run->tables[t].is_full;
        print_table(&run->tables[t], plan->sites);
    }
}
