/*
 * Of two neighbouring turns that touch nothing in common it does not matter which comes first, so of all orders that differ only so one is
 * enough. Two well-known means find one of each:
 *   - source sets: where two turns of a run depend on each other and could have come the other way round, the place before the first is gone
 *     back to once with the second before it;
 *   - sleep sets: what was gone through from a place need not be done first after something it does not depend on.
 * Turns of one processor, its interrupts and its ticks are actors of their own that exclude each other by who runs there.
 * With --all-orders nothing is left out, and with --preemptions N only orders with at most N places where a processor was left that could go on.
 */
#include "search.h"
#include <string.h>

enum { ACTIONS = MOST_PROCESSORS * ACTS };
struct node {
    uint32_t enabled, backtrack, done, sleep;
    int chosen;
    long spent;                         /* preemptions before it */
    long answers_before;                /* that at boot among them */
    uint16_t clock[ACTIONS];            /* for each actor its last turn that comes before the chosen one, from 1 */
    struct footprint footprint[ACTIONS]; /* of what was done here, or sleeps */
};
static struct tree { long depth, length; bool left_off, limited; struct node node[MOST_TURNS]; } *tree;
long search_pruned;

void search_make(void) {
    tree = shared_room(sizeof *tree);
}

static bool reduces(void) {
    return options.mode == EVERY_ORDER;
}

static bool same_processor(int a, int b) {
    return a / ACTS == b / ACTS;
}

static bool preempts(const struct node *node, int last, int action) {
    int on = last / ACTS * ACTS + GO;
    return last >= 0 && action != on && (node->enabled & 1u << on);
}

/* Beyond what is laid down: the processor of the last turn goes on, else another, then interrupts, and ticks last. */
static int first_of(uint32_t may, int last) {
    if (last >= 0 && (may & 1u << (last / ACTS * ACTS + GO)))
        return last / ACTS * ACTS + GO;
    for (int act = GO; act < ACTS; act++)
        for (int p = 0; p < fmphost_processors; p++)
            if (may & 1u << (p * ACTS + act))
                return p * ACTS + act;
    return -1;
}

/* Here a turn on which the last one does not depend need not be gone through again, where it was gone through before the last one. */
static void put_to_sleep(struct node *node, int last) {
    const struct node *above = node - 1;
    uint32_t asleep = (above->sleep | above->done) & node->enabled;
    for (int a = 0; a < ACTIONS; a++)
        if ((asleep & 1u << a) && a != last && !dependent(&above->footprint[a], &above->footprint[last])) {
            node->sleep |= 1u << a;
            node->footprint[a] = above->footprint[a];
        }
}

static uint32_t within_preemptions(const struct node *node, int last, uint32_t set) {
    for (int a = 0; a < ACTIONS && options.preemptions >= 0 && node->spent >= options.preemptions; a++)
        if ((set & 1u << a) && preempts(node, last, a)) {
            set &= ~(1u << a);
            tree->limited = true;
        }
    return set;
}

/* A place that the last run did not have. */
static int choose_first(struct node *node, uint32_t enabled, long turn) {
    int last = turn > 0 ? node[-1].chosen : -1;
    node->enabled = enabled;
    node->done = node->sleep = 0;
    node->answers_before = answers;
    node->spent = turn > 0 ? node[-1].spent + preempts(&node[-1], turn > 1 ? node[-2].chosen : -1, last) : 0;
    if (turn > 0 && reduces())
        put_to_sleep(node, last);
    node->chosen = first_of(enabled & ~node->sleep, last);
    node->backtrack = node->chosen < 0 ? 0 : reduces() ? 1u << node->chosen : within_preemptions(node, last, enabled);
    tree->left_off = node->chosen < 0 && enabled != 0;
    tree->length = node->chosen < 0 ? turn : turn + 1;
    return node->chosen;
}

int search_choose(uint32_t enabled, long turn) {
    struct node *node = &tree->node[turn];
    if (turn < tree->depth) {
        if (node->enabled != enabled)
            give_up("the program does not do the same again: does it use the time, a random number, or what it left in a file?");
        tree->length = turn + 1;
    } else if (choose_first(node, enabled, turn) < 0)
        return enabled == 0 ? ENDS_HERE : LEAVES_OFF;
    footprint = &node->footprint[node->chosen];
    return node->chosen;
}

/* --- after a run --- */

static bool comes_before(long first, const uint16_t *clock) {
    return clock[tree->node[first].chosen] >= first + 1;
}

/* Those of the turns from `first` to `second`, but for what comes after `first`, that could have been the first of them. */
static uint32_t initials(long first, long second) {
    uint32_t set = 0, met = 0;
    for (long k = first + 1; k <= second; k++) {
        const struct node *node = &tree->node[k];
        if (k < second && comes_before(first, node->clock))
            continue;
        bool alone = !(met & 1u << node->chosen);
        for (long m = first + 1; alone && m < k; m++)
            if (!comes_before(first, tree->node[m].clock) && comes_before(m, node->clock))
                alone = false;
        if (alone)
            set |= 1u << node->chosen;
        met |= 1u << node->chosen;
    }
    return set;
}

/* The first of these turns and the second depend on each other: goes back to the first, where the second or what led to it may come before. */
static void reverse(long first, long second) {
    struct node *node = &tree->node[first];
    uint32_t own = 1u << tree->node[second].chosen, could = initials(first, second) & node->enabled;
    if (could != 0 && !(could & node->backtrack))
        node->backtrack |= could & own ? own : could & (~could + 1);
}

static void join(uint16_t *into, const uint16_t *from) {
    for (int a = 0; a < ACTIONS; a++)
        if (into[a] < from[a])
            into[a] = from[a];
}

/*
 * Goes back to an earlier turn on account of a later one that it depends on, and says whether it is of the later one's past: then what
 * comes before it is so too, and is no race with the later one of itself.
 */
static bool go_back(long earlier, long later) {
    struct node *node = &tree->node[earlier];
    int act = tree->node[later].chosen % ACTS;
    uint32_t own = 1u << tree->node[later].chosen;
    if (!same_processor(node->chosen, tree->node[later].chosen)) {
        if (act != IPI || (node->enabled & own)) /* else it made the request that the interrupt takes */
            reverse(earlier, later);
        return true;
    }
    if (node->enabled & own) {
        node->backtrack |= own; /* by a call of its own: what goes on there then may be another context's */
        return true;
    }
    if (act == GO)
        return true; /* it dispatched the one that goes on */
    reverse(earlier, later); /* it ended what held the tick or the interrupt back: that may have come before that, too */
    return false;
}

/* Ticks that only come later, and are quiet there: they would have been so here. */
static uint32_t quiet_later(long turn) {
    uint32_t met = 0, quiet = 0;
    for (long i = turn + 1; i < tree->length; i++) {
        const struct node *node = &tree->node[i];
        if (node->chosen % ACTS == TICK && !(met & 1u << node->chosen)) {
            met |= 1u << node->chosen;
            quiet |= node->footprint[node->chosen].quiet ? 1u << node->chosen : 0;
        }
    }
    return quiet;
}

/* What a turn made impossible never shows as a turn of this run: it is gone back to at once. */
static void find_lost(void) {
    for (long i = tree->depth > 0 ? tree->depth - 1 : 0; i < tree->length; i++) {
        struct node *node = &tree->node[i];
        bool last = i + 1 == tree->length;
        if (last && outcome->ending != QUIET && outcome->ending != ASLEEP)
            continue;
        uint32_t lost = node->enabled & ~(last ? 0 : node[1].enabled) & ~(1u << node->chosen);
        node->backtrack |= lost == 0 ? 0 : lost & ~quiet_later(i);
    }
}

/* Each turn against those before it that it depends on, the last ones first. */
static void find_races(void) {
    for (long i = tree->depth > 0 ? tree->depth - 1 : 0; i < tree->length; i++) {
        struct node *node = &tree->node[i];
        uint16_t past[ACTIONS] = {0};
        memset(node->clock, 0, sizeof node->clock);
        for (long j = i - 1; j >= 0; j--) {
            struct node *other = &tree->node[j];
            bool mine = other->chosen == node->chosen;
            if (comes_before(j, past) || !(mine || dependent(&other->footprint[other->chosen], &node->footprint[node->chosen])))
                continue;
            join(node->clock, other->clock);
            if (mine || go_back(j, i))
                join(past, other->clock);
        }
        node->clock[node->chosen] = (uint16_t)(i + 1);
    }
}

bool search_next(void) {
    if (reduces()) {
        find_lost();
        find_races();
    }
    search_pruned += tree->left_off;
    tree->left_off = false;
    for (long i = tree->length - 1; i >= 0; i--) {
        struct node *node = &tree->node[i];
        node->done |= 1u << node->chosen;
        uint32_t others = node->backtrack & ~node->done & ~node->sleep & node->enabled;
        if (others == 0)
            continue;
        node->chosen = first_of(others, i > 0 ? tree->node[i - 1].chosen : -1);
        tree->depth = i + 1;
        return true;
    }
    return false;
}

long search_common(void) {
    return tree->depth > 0 ? tree->node[tree->depth - 1].answers_before : 0;
}

bool search_limited(void) {
    return tree->limited;
}

void search_anew(void) {
    tree->depth = tree->length = 0;
    tree->limited = false;
    search_pruned = 0;
}
