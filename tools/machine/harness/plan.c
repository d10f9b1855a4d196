/* Reads the plan from standard input: names and numbers in a fixed order, as tools/machine/plans.py writes them. */
#include "harness.h"
#include <inttypes.h>
#include <stdio.h>
#include <stdlib.h>
#include <string.h>

/* Ends the harness with status 2, since the plan lacks what is expected next. */
static void refuse(const char *name)
{
    fprintf(stderr, "harness: the plan has no '%s' where one is due\n", name);
    exit(2);
}

/* Reads a number. `name` says in a refusal what it belongs to. */
static int64_t read_number(const char *name)
{
    int64_t value;
    if (scanf("%" SCNd64, &value) != 1)
        refuse(name);
    return value;
}

/* Reads a name, which has to be the expected one. */
static void read_name(const char *expected)
{
    char word[32];
    if (scanf("%31s", word) != 1 || strcmp(word, expected))
        refuse(expected);
}

/* Reads a name, which has to be the expected one, and the number after it. */
static int64_t read_named_number(const char *expected)
{
    read_name(expected);
    return read_number(expected);
}

/* Reads a name, which has to be the expected one, and the count after it, from 0 to `most`. */
static int read_count(const char *expected, int most)
{
    int64_t value = read_named_number(expected);
    if (value < 0 || value > most)
        refuse(expected);
    return (int)value;
}

/* Returns memory for so many items of a size, all zero. Ends the harness with status 4 if there is none. */
static void *make_array(int items, size_t size)
{
    void *made = calloc((size_t)items + 1, size);
    if (!made) {
        perror("harness");
        exit(4);
    }
    return made;
}

static void read_test(struct plan *plan)
{
    plan->threads = read_count("threads", MAX_THREADS);
    plan->locations = read_count("locations", MAX_LOCATIONS);
    read_name("words");
    for (int k = 0; k < plan->locations; k++)
        plan->first_words[k] = (uint32_t)read_number("words");
    read_name("registers");
    for (int t = 0; t < plan->threads; t++)
        for (int r = 0; r < REGISTERS; r++)
            plan->first_registers[t][r] = (uint32_t)read_number("registers");
    read_name("lengths");
    for (int t = 0; t < plan->threads; t++)
        plan->lengths[t] = (int)read_number("lengths");
    plan->sites = read_count("sites", MAX_SITES);
    for (int k = 0; k < plan->sites; k++) {
        plan->site[k].thread = (int)read_number("sites");
        plan->site[k].index = (int)read_number("sites");
    }
}

static void read_lists(struct plan *plan)
{
    plan->listed = read_count("listed", 1 << 24);
    plan->states = make_array(plan->listed * (plan->sites + 1), sizeof *plan->states);
    for (int k = 0; k < plan->listed * plan->sites; k++)
        plan->states[k] = (uint32_t)read_number("listed");
    plan->scripts = read_count("scripts", 1 << 16);
    plan->script = make_array(plan->scripts, sizeof *plan->script);
    for (int k = 0; k < plan->scripts; k++) {
        struct script *script = &plan->script[k];
        script->count = read_count("script", 1 << 16);
        script->pieces = make_array(script->count, sizeof *script->pieces);
        for (int p = 0; p < script->count; p++) {
            script->pieces[p].thread = (int)read_number("script");
            script->pieces[p].count = (int)read_number("script");
        }
    }
    plan->placements = read_count("placements", 1 << 16);
    plan->placement = make_array(plan->placements, sizeof *plan->placement);
    for (int k = 0; k < plan->placements; k++)
        for (int t = 0; t < plan->threads; t++)
            plan->placement[k][t] = (int)read_number("placements");
}

static void read_knobs(struct knobs *knobs)
{
    knobs->sync = read_count("sync", SYNC_MIXED);
    knobs->prepare = read_count("prepare", 1);
    knobs->ballast = read_count("ballast", 1);
    knobs->delay = read_count("delay", 1);
    knobs->stride = read_count("stride", 1 << 16);
    knobs->learn = read_count("learn", 1);
    knobs->move = read_count("move", 1);
    knobs->halts = read_count("halts", 1);
    knobs->schedules = read_count("schedules", 1);
    knobs->light = read_count("light", 1);
    knobs->pin = read_count("pin", 1);
}

void read_plan(struct plan *plan)
{
    memset(plan, 0, sizeof *plan);
    read_test(plan);
    read_lists(plan);
    read_knobs(&plan->knobs);
    plan->has_clock = read_count("clock", 1);
    plan->is_scarce = read_count("scarce", 1);
    plan->until_complete = read_count("complete", 1);
    plan->instances = (uint32_t)read_count("instances", 1 << 20);
    plan->runs = (uint64_t)read_named_number("runs");
    plan->seconds = (double)read_named_number("milliseconds") / 1000;
    read_name("end");
    if (plan->instances < LED_PART || plan->instances & (plan->instances - 1))
        refuse("instances");
}
