/* Draws recipes. Half of the time goes to light ones, of which many instances fit into a second. Of the rest, most are recipes that showed new
   or rare states, with one thing changed; the others are led by a schedule, have halts, or race. */
#include "harness.h"
#include <string.h>

/* Keeps a recipe in the pool fresh: what it was worth counts for less after each batch. */
#define FADES 0.995
static const uint32_t delays[] = {0, 0, 40, 100, 200, 400, 800, 1600};

/* Returns a random number below a limit. */
static uint64_t below(struct cookbook *book, uint64_t limit)
{
    return next_random(&book->random) % limit;
}

/* Returns whether a draw that succeeds once in so many times succeeds. */
static int one_in(struct cookbook *book, int times)
{
    return below(book, (uint64_t)times) == 0;
}

/* Returns a random mask: up to `most_bits` ones in binary. */
static uint32_t jitter_of(struct cookbook *book, int most_bits)
{
    return (1u << below(book, (uint64_t)most_bits + 1)) - 1;
}

/* Begins a recipe of a kind: draws which thread writes the first word of each location. */
static void begin_recipe(struct cookbook *book, struct recipe *recipe, int kind)
{
    memset(recipe, 0, sizeof *recipe);
    recipe->kind = (uint8_t)kind;
    recipe->script = -1;
    recipe->sync = SYNC_TIME;
    for (int k = 0; k < book->plan->locations; k++)
        recipe->owner[k] = (uint8_t)below(book, (uint64_t)book->plan->threads);
}

/* Returns how threads come together: as the knob says, or one of the other three at random. */
static uint8_t sync_of(struct cookbook *book)
{
    int sync = book->plan->knobs.sync;
    return (uint8_t)(sync == SYNC_MIXED ? (int)below(book, SYNC_MIXED) : sync);
}

static void draw_light(struct cookbook *book, struct recipe *recipe)
{
    begin_recipe(book, recipe, RACE);
    recipe->sync = sync_of(book);
    if (book->plan->knobs.sync == SYNC_MIXED && recipe->sync == SYNC_NONE)
        recipe->sync = SYNC_TIME;
    for (int t = 0; t < book->plan->threads; t++)
        recipe->delay[t] = one_in(book, 2) ? 0 : (uint32_t)below(book, 60);
    recipe->jitter = jitter_of(book, 6);
}

static void draw_led(struct cookbook *book, struct recipe *recipe)
{
    begin_recipe(book, recipe, LED);
    book->next_script = (book->next_script + 1) % book->plan->scripts;
    recipe->script = book->next_script;
    recipe->jitter = jitter_of(book, 9);
}

static void draw_halts(struct cookbook *book, struct recipe *recipe)
{
    const struct plan *plan = book->plan;
    int who = (int)below(book, (uint64_t)plan->threads), all = one_in(book, 2);
    begin_recipe(book, recipe, HALTS);
    recipe->halt_for = 1000u << below(book, 4);
    recipe->jitter = 8191;
    for (int t = 0; t < plan->threads; t++) {
        recipe->halts[t] = all || t == who ? (uint8_t)(one_in(book, 2) ? 1 + below(book, 4) : 1) : 0;
        recipe->delay[t] = one_in(book, 2) ? 0 : (uint32_t)below(book, 8000);
        recipe->halt_at[t] = one_in(book, 2) ? -1 : (int16_t)below(book, (uint64_t)plan->lengths[t] + 1);
    }
}

static void draw_race(struct cookbook *book, struct recipe *recipe)
{
    const struct plan *plan = book->plan;
    const struct knobs *knobs = &plan->knobs;
    int is_mixed = knobs->sync == SYNC_MIXED, at_random = one_in(book, 4);
    int prepares = knobs->prepare && (!is_mixed || one_in(book, 2)), ballasts = knobs->ballast && (!is_mixed || one_in(book, 4));
    int waits = knobs->delay && (!is_mixed || !one_in(book, 4));
    uint32_t far = delays[below(book, 8)];
    begin_recipe(book, recipe, RACE);
    recipe->sync = sync_of(book);
    for (int t = 0; t < plan->threads; t++) {
        for (int k = 0; prepares && k < plan->locations; k++)
            recipe->prepare[t][k] = (uint8_t)(at_random ? PREPARATIONS : below(book, PREPARATIONS));
        if (ballasts && one_in(book, 2))
            recipe->ballast[t] = (uint8_t)below(book, MAX_BALLAST + 1);
        if (waits)
            recipe->delay[t] = (uint32_t)below(book, far + 1);
    }
    if (waits)
        recipe->jitter = jitter_of(book, 10);
}

/* Changes a recipe with halts: where, how long or how often a thread halts, or when it begins. */
static void change_halts(struct cookbook *book, struct recipe *recipe)
{
    uint64_t what = below(book, 4), t = below(book, (uint64_t)book->plan->threads);
    if (what == 0)
        recipe->halt_at[t] = (int16_t)((int)below(book, (uint64_t)book->plan->lengths[t] + 2) - 1);
    else if (what == 1)
        recipe->halt_for = 1000u << below(book, 4);
    else if (what == 2)
        recipe->halts[t] = (uint8_t)below(book, 4);
    else
        recipe->delay[t] = one_in(book, 2) ? 0 : (uint32_t)below(book, 8000);
}

static void change_race(struct cookbook *book, struct recipe *recipe)
{
    const struct plan *plan = book->plan;
    const struct knobs *knobs = &plan->knobs;
    uint64_t what = below(book, 6), t = below(book, (uint64_t)plan->threads);
    uint64_t k = plan->locations ? below(book, (uint64_t)plan->locations) : 0;
    if (what == 0)
        recipe->owner[k] = (uint8_t)below(book, (uint64_t)plan->threads);
    else if (what == 1 && knobs->prepare)
        recipe->prepare[t][k] = (uint8_t)below(book, PREPARATIONS + 1);
    else if (what == 2 && knobs->ballast)
        recipe->ballast[t] = (uint8_t)below(book, MAX_BALLAST + 1);
    else if (what == 3 && knobs->delay)
        recipe->delay[t] = (uint32_t)below(book, 1 + delays[below(book, 8)]);
    else if (what == 4 && knobs->delay)
        recipe->jitter = jitter_of(book, 10);
    else if (what == 5)
        recipe->sync = sync_of(book);
}

/* Takes the better one of two recipes of the pool, and changes one thing. Returns 0 if there is none. */
static int draw_changed(struct cookbook *book, struct recipe *recipe)
{
    uint64_t at = below(book, POOL), other = below(book, POOL);
    at = book->worth[other] > book->worth[at] ? other : at;
    if (book->worth[at] <= 0)
        return 0;
    *recipe = book->pool[at];
    if (recipe->kind == LED)
        recipe->jitter = jitter_of(book, 9);
    else if (recipe->kind == HALTS)
        change_halts(book, recipe);
    else
        change_race(book, recipe);
    return 1;
}

/* Draws a recipe of some kind. With fewer processors than threads, races show little. */
static void draw_any(struct cookbook *book, struct recipe *recipe)
{
    const struct plan *plan = book->plan;
    if (plan->knobs.light && (plan->is_scarce ? one_in(book, 8) : one_in(book, 2)))
        draw_light(book, recipe);
    else if (plan->knobs.learn && !one_in(book, 4) && draw_changed(book, recipe))
        return;
    else if (book->has_traps && plan->knobs.schedules && plan->scripts && one_in(book, plan->is_scarce ? 2 : 4))
        draw_led(book, recipe);
    else if (book->has_traps && plan->knobs.halts && one_in(book, plan->is_scarce ? 2 : 4))
        draw_halts(book, recipe);
    else
        draw_race(book, recipe);
}

void draw_recipe(struct cookbook *book, struct recipe *recipe)
{
    draw_any(book, recipe);
    /* Without a clock that all processors share, a flag takes its place. */
    if (recipe->sync == SYNC_TIME && !book->has_clock)
        recipe->sync = SYNC_FLAG;
}

void learn(struct cookbook *book, const struct recipe *recipe, double worth)
{
    int lowest = 0;
    for (int k = 0; k < POOL; k++) {
        book->worth[k] *= FADES;
        lowest = book->worth[k] < book->worth[lowest] ? k : lowest;
    }
    if (worth > book->worth[lowest]) {
        book->pool[lowest] = *recipe;
        book->worth[lowest] = worth;
    }
}
