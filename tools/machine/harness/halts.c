/* Threads under the trap flag: the processor traps after each instruction of the test, and the handler waits before some of them. The test's
   instructions are unchanged. A trap takes microseconds, in which stores drain; so halts show hand-overs between threads that races seldom
   show, and never show a store that waits.

   A thread that a schedule leads does its pieces in turn with the others. After the last piece all threads race, without traps. */
#define _GNU_SOURCE
#include "harness.h"
#include <sched.h>
#include <signal.h>
#include <stdio.h>
#include <stdlib.h>
#include <string.h>
#include <sys/wait.h>
#include <ucontext.h>
#include <unistd.h>

#define TRAP_FLAG 0x100
#define PATIENCE 2000 /* milliseconds that the trial of traps may take */

static __thread struct {
    int thread, yields, traps;
    const char *begin, *end;
    int done; /* instructions of the test */
    /* of a thread with halts */
    int wanted, left, length;
    uint64_t wait, most, random;
    /* of a thread that is led */
    const struct script *script;
    volatile int *turn;
    int piece, until;
} self;

static void wait_cycles(uint64_t cycles)
{
    uint64_t begin = cycles_now();
    do {
        if (self.yields)
            sched_yield();
    } while (cycles_now() - begin < cycles);
}

/* Waits for the thread's next piece. Returns 0 if there is none, when all pieces are done. */
static int wait_for_piece(int from)
{
    const struct script *script = self.script;
    uint64_t begin = cycles_now(), most = self.yields ? 4 * MAX_WAIT : MAX_WAIT;
    while (from < script->count && script->pieces[from].thread != self.thread)
        from++;
    self.piece = from;
    for (int spins = 0; *self.turn < from && cycles_now() - begin < most; spins++)
        if (self.yields || spins > SPINS)
            sched_yield();
    if (from < script->count) {
        self.until = self.done + script->pieces[from].count;
        return 1;
    }
    wait_cycles(self.wait);
    return 0;
}

/* Returns whether a thread that is led goes on under the trap flag. */
static int goes_on_led(const char *here)
{
    if (here == self.begin && self.piece < 0)
        return wait_for_piece(0);
    if (++self.done < self.until)
        return 1;
    if (here >= self.end)
        return 0;
    *self.turn = self.piece + 1;
    return wait_for_piece(self.piece + 1);
}

/* Returns whether a thread with halts goes on under the trap flag. */
static int goes_on_halting(const char *here)
{
    if (here < self.end && self.done < self.wanted) {
        self.done++;
        return 1;
    }
    if (self.left <= 0)
        return 0;
    wait_cycles(self.wait);
    if (--self.left <= 0 || here >= self.end)
        return 0;
    self.wait = next_random(&self.random) % self.most;
    self.wanted = self.done + 1 + (int)(next_random(&self.random) % (uint64_t)(self.length > self.done ? self.length - self.done : 1));
    self.done++;
    return 1;
}

static void on_trap(int number, siginfo_t *info, void *context)
{
    greg_t *registers = ((ucontext_t *)context)->uc_mcontext.gregs;
    const char *here = (const char *)registers[REG_RIP];
    int goes_on = here <= self.end;
    (void)number, (void)info;
    self.traps++;
    if (goes_on && here >= self.begin)
        goes_on = (self.script ? goes_on_led(here) : goes_on_halting(here)) && here < self.end;
    if (!goes_on)
        registers[REG_EFL] &= ~TRAP_FLAG;
}

static void begin_thread(int thread, const struct plan *plan)
{
    self.thread = thread;
    self.yields = plan->is_scarce;
    self.begin = lw_threads[thread].begin;
    self.end = lw_threads[thread].end;
    self.length = plan->lengths[thread];
    self.done = self.left = 0;
    self.script = NULL;
}

void run_with_halts(int thread, const struct plan *plan, char *const *at, uint32_t *registers, const struct halt *halt)
{
    begin_thread(thread, plan);
    self.random = halt->random | 1;
    self.most = halt->most;
    self.wait = next_random(&self.random) % self.most;
    self.wanted = halt->first >= 0 ? halt->first : (int)(next_random(&self.random) % (uint64_t)(self.length + 1));
    self.left = halt->count;
    lw_threads[thread].run_with_traps(at, registers);
}

void run_led(int thread, const struct plan *plan, char *const *at, uint32_t *registers, const struct lead *lead)
{
    begin_thread(thread, plan);
    self.script = lead->script;
    self.turn = lead->turn;
    self.wait = lead->wait;
    self.piece = -1;
    self.until = 0;
    lw_threads[thread].run_with_traps(at, registers);
    if (self.piece < self.script->count && *self.turn == self.piece)
        *self.turn = self.piece + 1;
    self.script = NULL;
}

static int is_traced(void)
{
    char line[256];
    int tracer = 0;
    FILE *status = fopen("/proc/self/status", "r");
    while (status && fgets(line, sizeof line, status))
        if (sscanf(line, "TracerPid: %d", &tracer) == 1)
            break;
    if (status)
        fclose(status);
    return tracer != 0;
}

/* In a process of its own: runs the first thread under the trap flag, which some sandboxes take for an error. */
static void try_in_child(const struct plan *plan)
{
    char *at[MAX_LOCATIONS];
    uint32_t registers[REGISTERS] = {0};
    struct halt halt = {plan->lengths[0], 0, 1, 1};
    for (int k = 0; k < MAX_LOCATIONS; k++)
        at[k] = room(LINE, 0);
    run_with_halts(0, plan, at, registers, &halt);
    _exit(self.traps > 0 ? 0 : 1);
}

enum traps try_traps(const struct plan *plan)
{
    struct sigaction trap;
    int status = 1;
    if (!plan->knobs.halts && !(plan->knobs.schedules && plan->scripts))
        return TRAPS_UNUSED;
    if (is_traced())
        return TRAPS_TRACED;
    memset(&trap, 0, sizeof trap);
    trap.sa_sigaction = on_trap;
    trap.sa_flags = SA_SIGINFO;
    if (sigaction(SIGTRAP, &trap, NULL))
        return TRAPS_CAUGHT;
    pid_t child = fork();
    if (child == 0)
        try_in_child(plan);
    if (child < 0)
        return TRAPS_CAUGHT;
    for (int waited = 0; waitpid(child, &status, WNOHANG) == 0; waited++) {
        if (waited == PATIENCE) {
            kill(child, SIGKILL);
            waitpid(child, &status, 0);
            return TRAPS_CAUGHT;
        }
        usleep(1000);
    }
    return WIFEXITED(status) && WEXITSTATUS(status) == 0 ? TRAPS_WORK : TRAPS_CAUGHT;
}
