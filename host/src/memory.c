#include "memory.h"
#include "clocks.h"
#include "outcome.h"
#include "pools.h"
#include "run.h"
#include "stacks.h"
#include <stdio.h>
#include <string.h>

enum { WORD = 8, MOST_SEEN = 1 << 20, MOST_WORDS = 1 << 17, WORD_SLOTS = 1 << 18, MOST_CELLS = 1 << 12, CELL_SLOTS = 1 << 13 };
struct seen { /* an access that was made, of one context: the last of its kind */
    uint32_t next;       /* of the same word, or 0 */
    short context;
    unsigned char bytes; /* which of the word's */
    bool writes, atomic, frees;
    unsigned char processor;
    uint32_t count;
    uintptr_t place;
};
struct word {
    uintptr_t number;
    short first;          /* the context that touched it first, */
    uint32_t life;        /* and in which of its lives */
    bool shared, written;
    uint64_t at_first;    /* what it was before it was touched */
    uint32_t seen;        /* the first of what was seen, or 0 */
};
struct cell { /* of atomic and volatile accesses: what whoever reads it may take from who wrote it */
    uintptr_t at;
    short giver;          /* the context that wrote it last, or -1 */
};
/* In rooms of their own, not from malloc: what the program gets of malloc has to be the same in each order. */
static struct word *words;
static uint32_t *slots;               /* the words by their hashes, from 1 */
static uint32_t (*cell_clock)[MOST_CONTEXTS];
static struct cell *cells;            /* by their hashes: at is 0 where there is none */
static struct seen *seen_room;        /* from 1 */
static long word_count, cell_count, seen_count;
static uint32_t unused_seen;          /* what was given back, as a list */
struct learned *learned;
static struct callers *seen_callers; /* of each that was seen, where the run is told */

void memory_make(void) {
    words = own_room(MOST_WORDS * sizeof *words);
    slots = own_room(WORD_SLOTS * sizeof *slots);
    seen_room = own_room(MOST_SEEN * sizeof *seen_room);
    seen_callers = own_room(MOST_SEEN * sizeof *seen_callers);
    cells = own_room(CELL_SLOTS * sizeof *cells);
    cell_clock = own_room(CELL_SLOTS * sizeof *cell_clock);
}

static size_t slot_of(uintptr_t number, size_t slot_count) {
    return (size_t)((number * 0x9e3779b97f4a7c15u) >> 40) & (slot_count - 1);
}

/* Whole words are read, also where the program has but a byte of one. */
__attribute__((no_sanitize("address"))) static uint64_t value_of(uintptr_t number) {
    return *(const volatile uint64_t *)(number * WORD);
}

static struct word *word_at(uintptr_t number, bool make) {
    size_t i = slot_of(number, WORD_SLOTS);
    for (; slots[i] != 0; i = (i + 1) & (WORD_SLOTS - 1))
        if (words[slots[i] - 1].number == number)
            return &words[slots[i] - 1];
    if (!make)
        return NULL;
    if (word_count == MOST_WORDS) {
        snprintf(outcome->left[LEFT_MEMORY], sizeof outcome->left[LEFT_MEMORY], "accesses beyond the first %d words of memory", MOST_WORDS);
        return NULL;
    }
    struct word *word = &words[word_count++];
    slots[i] = (uint32_t)word_count;
    *word = (struct word){.number = number, .first = -1, .at_first = value_of(number)};
    return word;
}

/* --- words that were learned --- */

static bool is_learned(uintptr_t number) {
    for (size_t i = slot_of(number, LEARNED_SLOTS); learned->slot[i] != 0; i = (i + 1) & (LEARNED_SLOTS - 1))
        if (learned->word[learned->slot[i] - 1] == number)
            return true;
    return false;
}

void learn_word(uintptr_t number) {
    learned->full |= learned->count == MOST_LEARNED && !is_learned(number);
    if (learned->full || is_learned(number))
        return;
    size_t i = slot_of(number, LEARNED_SLOTS);
    while (learned->slot[i] != 0)
        i = (i + 1) & (LEARNED_SLOTS - 1);
    learned->word[learned->count++] = number;
    learned->slot[i] = (short)learned->count;
}

void learned_only(long count) {
    bool full = learned->full;
    memset(learned->slot, 0, sizeof learned->slot);
    learned->count = 0;
    learned->full = false;
    for (long i = 0; i < count; i++)
        learn_word(learned->word[i]);
    learned->full = full;
}

/* --- points --- */

/* Is it a place at which another may go on? Only where another one touches the word too, and one of both writes. */
static bool is_point(struct context *me, uintptr_t number, bool writes) {
    struct word *word = word_at(number, true);
    if (word == NULL)
        return is_learned(number);
    int id = (int)(me - contexts);
    if (word->first < 0) {
        int owner = owner_of_stack(number * WORD);
        word->first = (short)(owner >= 0 ? owner : id);
        word->life = me->ended;
    }
    /* a life that was ended anywhere in its code is another's to the next one, but for its stack */
    word->shared |= word->first != id || (word->life != me->ended && !own_stack(me, number * WORD));
    word->written |= writes;
    if (word->shared && word->written && learned->learns)
        learn_word(number);
    return (word->shared && word->written) || is_learned(number);
}

/* --- races --- */

static unsigned char bytes_in(uintptr_t number, uintptr_t at, unsigned size) {
    unsigned bits = 0;
    for (unsigned i = 0; i < WORD; i++)
        if (number * WORD + i >= at && number * WORD + i < at + size)
            bits |= 1u << i;
    return (unsigned char)bits;
}

static _Noreturn void end_at_race(const struct seen *seen, const struct seen *now, uintptr_t at, unsigned size) {
    outcome->race[0] = (struct access){.at = at, .place = seen->place, .size = size, .context = seen->context, .writes = seen->writes, .frees = seen->frees, .processor = seen->processor};
    outcome->race[1] = (struct access){.at = at, .place = now->place, .size = size, .context = now->context, .writes = now->writes, .frees = now->frees, .processor = now->processor};
    if (recording) {
        outcome->race[0].callers = seen_callers[seen - seen_room];
        callers_of(running, (uintptr_t)__builtin_frame_address(0), now->place, &outcome->race[1].callers);
    }
    end_run(RACE, " ");
}

static bool races(const struct seen *seen, const struct seen *now) {
    return (seen->bytes & now->bytes) && (seen->writes || now->writes) && !(seen->atomic && now->atomic) &&
           !clock_knows(now->context, seen->context, seen->count) &&
           (options.races == RACES_ALL || (options.races == RACES_BETWEEN && seen->processor != now->processor));
}

static bool is_like(const struct seen *one, const struct seen *other) {
    return one->context == other->context && one->writes == other->writes && one->atomic == other->atomic && one->bytes == other->bytes;
}

/* Room for one more, or 0. */
static uint32_t new_seen(void) {
    uint32_t made = unused_seen;
    if (made != 0)
        unused_seen = seen_room[made].next;
    else if (seen_count + 1 < MOST_SEEN)
        made = (uint32_t)++seen_count;
    else
        snprintf(outcome->left[LEFT_MEMORY], sizeof outcome->left[LEFT_MEMORY], "races of more than %d accesses", MOST_SEEN);
    return made;
}

static void forget_seen(struct word *word) {
    while (word->seen != 0) {
        uint32_t next = seen_room[word->seen].next;
        seen_room[word->seen].next = unused_seen;
        unused_seen = word->seen;
        word->seen = next;
    }
}

/* Looks whether one that was made before is not ordered with it, and keeps it in the place of the context's own like it. */
static void look_and_keep(struct word *word, struct seen now, uintptr_t at, unsigned size) {
    uint32_t mine = 0;
    for (uint32_t i = word->seen; i != 0; i = seen_room[i].next) {
        const struct seen *seen = &seen_room[i];
        if (seen->context != now.context && races(seen, &now) && !is_shared_variable(at))
            end_at_race(seen, &now, at, size);
        if (is_like(seen, &now))
            mine = i;
    }
    if (mine != 0)
        now.next = seen_room[mine].next;
    else if ((mine = new_seen()) != 0) {
        now.next = word->seen;
        word->seen = mine;
    } else
        return;
    seen_room[mine] = now;
    if (recording)
        callers_of(running, (uintptr_t)__builtin_frame_address(0), now.place, &seen_callers[mine]);
}

static void record(struct context *me, uintptr_t number, const struct context *access) {
    struct word *word = word_at(number, false);
    int id = (int)(me - contexts);
    struct seen now = {.context = (short)id, .bytes = bytes_in(number, access->at, access->size), .writes = access->writes, .atomic = access->atomic,
                       .processor = (unsigned char)run_processor(me), .count = clock_now(id), .place = access->place};
    if (word != NULL)
        look_and_keep(word, now, access->at, access->size);
}

void memory_touch(uintptr_t at, unsigned size, bool writes, bool atomic, uintptr_t place) {
    struct context *me = running;
    if (me == NULL || size == 0)
        return;
    bool point = false;
    me->place = place; /* before memory is looked at: a crash there is that of the access */
    pools_touch(at, size, writes);
    stacks_touch(me, at, place);
    for (uintptr_t number = at / WORD; number <= (at + size - 1) / WORD; number++)
        point |= is_point(me, number, writes);
    me->at = at, me->size = size, me->writes = writes, me->atomic = atomic;
    if (point && options.points) {
        me->next = ACCESS;
        context_stop();
    }
    for (uintptr_t number = at / WORD; number <= (at + size - 1) / WORD; number++)
        record(me, number, me);
}

/* --- what is atomic or volatile, and fences --- */

static size_t cell_at(uintptr_t at) {
    size_t i = slot_of(at, CELL_SLOTS);
    while (cells[i].at != 0 && cells[i].at != at)
        i = (i + 1) & (CELL_SLOTS - 1);
    if (cells[i].at == 0 && cell_count++ == MOST_CELLS)
        give_up("the program has more than %d atomic and volatile variables that fences order", MOST_CELLS);
    if (cells[i].at == 0)
        cells[i] = (struct cell){at, -1};
    return i;
}

/* What C11 says of a write that others read, in one order of all: a store ends what another one's store gave, and a change goes on with it. */
static void order_cell(uintptr_t at, enum atomic kind, int order) {
    int id = (int)(running - contexts);
    size_t i = cell_at(at);
    bool acquires = order != __ATOMIC_RELAXED && order != __ATOMIC_RELEASE;
    bool releases = order != __ATOMIC_RELAXED && order != __ATOMIC_ACQUIRE && order != __ATOMIC_CONSUME;
    if (kind != STORE)
        clocks_read(id, cell_clock[i], acquires);
    if (kind == LOAD)
        return;
    if (kind == STORE && cells[i].giver != id)
        memset(cell_clock[i], 0, sizeof cell_clock[i]);
    cells[i].giver = (short)id;
    clocks_write(id, cell_clock[i], releases);
}

/* One processor's turn at a time is made, so a plain access does for an atomic one; the order that it gives is kept by its address. */
void memory_atomic(uintptr_t at, unsigned size, enum atomic kind, int order, uintptr_t place) {
    memory_touch(at, size, kind != LOAD, true, place);
    if (running != NULL)
        order_cell(at, kind, order);
}

/* With fences, a volatile variable orders as a relaxed atomic one does. */
void memory_volatile(uintptr_t at, unsigned size, bool writes, uintptr_t place) {
    memory_touch(at, size, writes, !options.volatiles, place);
    if (running != NULL && clocks_fences())
        order_cell(at, writes ? STORE : LOAD, __ATOMIC_RELAXED);
}

void memory_fence(int order) {
    if (running != NULL)
        clocks_fence((int)(running - contexts), order != __ATOMIC_RELAXED && order != __ATOMIC_RELEASE,
                     order != __ATOMIC_RELAXED && order != __ATOMIC_ACQUIRE && order != __ATOMIC_CONSUME);
}

/* --- memory that is handed over --- */

void memory_given(uintptr_t at, uint64_t size) {
    for (uintptr_t number = at / WORD; size > 0 && number <= (at + size - 1) / WORD; number++) {
        struct word *word = word_at(number, false);
        if (word != NULL) {
            word->first = -1;
            word->shared = word->written = false;
            forget_seen(word);
        }
    }
}

void memory_freed(uintptr_t at, uint64_t size, uintptr_t place) {
    int id = (int)(running - contexts);
    running->place = place;
    for (uintptr_t number = at / WORD; size > 0 && number <= (at + size - 1) / WORD; number++) {
        struct word *word = word_at(number, false);
        struct seen now = {.context = (short)id, .bytes = 0xff, .writes = true, .frees = true, .processor = (unsigned char)run_processor(running),
                           .count = clock_now(id), .place = place};
        if (word != NULL)
            look_and_keep(word, now, number * WORD, WORD);
    }
}

/* --- hashes of what the program has in its memory --- */

static uint64_t hash_words(bool all) {
    uint64_t sum = 0; /* in no order, since the table's is that of a run */
    for (long i = 0; i < word_count; i++) {
        const struct word *word = &words[i];
        if (!(all || (word->shared && word->written)) || owner_of_stack(word->number * WORD) >= 0)
            continue;
        uint64_t value = value_of(word->number);
        if (value == word->at_first) /* so it does not matter whether it was touched */
            continue;
        uint64_t part = (value + 0x9e3779b97f4a7c15u) * (word->number | 1);
        sum += part ^ part >> 29;
    }
    return sum;
}

uint64_t memory_hash(void) {
    return hash_words(false);
}

uint64_t memory_hash_all(void) {
    return hash_words(true);
}

/* A place with other clocks may have other races behind it, though the memory is the same. */
static uint64_t hash_seen(const struct word *word, const struct seen *seen) {
    uint64_t sum = clocks_know(seen->context, seen->count);
    if (sum == 0)
        return 0;
    for (size_t i = 0; i < CELL_SLOTS && cell_count > 0; i++)
        if (cells[i].at != 0)
            sum = (sum ^ (cell_clock[i][seen->context] >= seen->count ? cells[i].at : 1)) * 0x9e3779b97f4a7c15u;
    uint64_t what = (uint64_t)seen->context << 16 | (uint64_t)seen->bytes << 8 | (uint64_t)(seen->writes * 4 + seen->atomic * 2 + seen->frees);
    uint64_t part = (sum ^ what * 0x94d049bb133111ebu ^ (uint64_t)seen->processor << 56) * (word->number | 1);
    return part ^ part >> 31;
}

uint64_t memory_hash_races(void) {
    uint64_t sum = 0; /* in no order, as those of words are */
    for (long i = 0; i < word_count; i++)
        for (uint32_t at = words[i].seen; at != 0; at = seen_room[at].next)
            sum += hash_seen(&words[i], &seen_room[at]);
    return sum;
}
