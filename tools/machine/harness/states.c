/* Counts final states: a table for each thread, which it uses without the others, and which of the listed states were seen by any. */
#include "harness.h"
#include <stdio.h>
#include <string.h>

#define SLOTS 65536
#define NEW_STATE 100.0

/* Returns a hash of the words of a state. */
static uint32_t hash_of(const uint32_t *words, int sites)
{
    uint64_t hash = 1469598103934665603ull;
    for (int k = 0; k < sites; k++)
        hash = (hash ^ words[k]) * 1099511628211ull;
    return (uint32_t)(hash ^ hash >> 29);
}

void make_table(struct table *table)
{
    table->entries = (struct entry *)room(SLOTS * sizeof(struct entry), 0);
    table->filled = 0;
    table->is_full = 0;
}

/* The number of slots of a listing: a power of 2, at most half of them used. */
static uint32_t slots_for(int listed)
{
    uint32_t slots = 16;
    while (slots < 2 * (uint32_t)listed)
        slots *= 2;
    return slots;
}

void make_listing(struct listing *listing, const struct plan *plan)
{
    uint32_t slots = slots_for(plan->listed);
    listing->plan = plan;
    listing->slots = (int *)room(slots * sizeof(int), 1);
    listing->seen = (unsigned char *)room((uint64_t)plan->listed + 1, 1);
    listing->seen_count = 0;
    for (int k = 0; k < plan->listed; k++) {
        uint32_t at = hash_of(plan->states + k * plan->sites, plan->sites) & (slots - 1);
        while (listing->slots[at])
            at = (at + 1) & (slots - 1);
        listing->slots[at] = k + 1;
    }
}

/* Records that a state was seen, if it is listed. */
static void record_seen(struct listing *listing, const uint32_t *words)
{
    const struct plan *plan = listing->plan;
    uint32_t slots = slots_for(plan->listed), at = hash_of(words, plan->sites) & (slots - 1);
    for (; listing->slots[at]; at = (at + 1) & (slots - 1)) {
        int k = listing->slots[at] - 1;
        if (memcmp(plan->states + k * plan->sites, words, (size_t)plan->sites * sizeof *words))
            continue;
        if (!__atomic_exchange_n(&listing->seen[k], 1, __ATOMIC_RELAXED))
            __atomic_add_fetch(&listing->seen_count, 1, __ATOMIC_RELAXED);
        return;
    }
}

double count_state(struct table *table, struct listing *listing, const uint32_t *words, double now, int kind)
{
    int sites = listing->plan->sites;
    uint32_t at = hash_of(words, sites) & (SLOTS - 1);
    while (table->entries[at].count && memcmp(table->entries[at].words, words, (size_t)sites * sizeof *words))
        at = (at + 1) & (SLOTS - 1);
    struct entry *entry = &table->entries[at];
    if (entry->count)
        return 1.0 / (double)++entry->count;
    if (table->filled > SLOTS / 4 * 3) {
        table->is_full = 1;
        return 0;
    }
    table->filled++;
    entry->count = 1;
    entry->first = now;
    entry->kind = kind;
    memcpy(entry->words, words, (size_t)sites * sizeof *words);
    record_seen(listing, words);
    return NEW_STATE;
}

void print_table(const struct table *table, int sites)
{
    for (int k = 0; k < SLOTS; k++) {
        const struct entry *entry = &table->entries[k];
        if (!entry->count)
            continue;
        printf("state %llu %.6f %d", (unsigned long long)entry->count, entry->first, entry->kind);
        for (int s = 0; s < sites; s++)
            printf(" %u", entry->words[s]);
        printf("\n");
    }
}
