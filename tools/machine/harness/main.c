/* The program of the harness: it reads a plan, runs it, and prints each final state with its count, and a line of facts. */
#include "harness.h"
#include <stdio.h>
#include <stdlib.h>
#include <sys/mman.h>
#include <sys/resource.h>
#include <time.h>

char *room(uint64_t bytes, int is_filled)
{
    int flags = MAP_PRIVATE | MAP_ANONYMOUS | (is_filled ? MAP_POPULATE : 0);
    char *made = mmap(NULL, bytes, PROT_READ | PROT_WRITE, flags, -1, 0);
    if (made == MAP_FAILED) {
        perror("harness");
        exit(4);
    }
    return made;
}

double seconds_now(void)
{
    struct timespec now;
    clock_gettime(CLOCK_MONOTONIC, &now);
    return (double)now.tv_sec + (double)now.tv_nsec * 1e-9;
}

/* How often threads lost their processor to others since the start. */
static long switches(void)
{
    struct rusage used;
    return getrusage(RUSAGE_SELF, &used) ? 0 : used.ru_nivcsw;
}

int main(void)
{
    struct plan plan;
    struct summary summary = {0};
    read_plan(&plan);
    summary.traps = try_traps(&plan);
    long before = switches();
    run_batches(&plan, &summary);
    printf("facts runs %llu batches %llu microseconds %.0f", (unsigned long long)summary.runs, (unsigned long long)summary.batches,
           summary.seconds * 1e6);
    printf(" traps %d clocks_differ %d is_full %d is_pinned %d switches %ld\n", summary.traps, summary.clocks_differ, summary.is_full,
           summary.is_pinned, switches() - before);
    return 0;
}
