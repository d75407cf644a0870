#include "pools.h"
#include "outcome.h"
#include "run.h"

/* The context that got a block, from 1, and 0 where it is not handed out; by the first block of its pool. */
static uint16_t *taker_of;
static int first_block[MOST_OBJECTS];

static int pool_count(void) {
    int blocks = 0;
    for (int i = 0; i < fmphost_object_count; i++)
        if (fmphost_objects[i].kind == FMPHOST_MPF) {
            first_block[i] = blocks;
            blocks += fmphost_objects[i].blocks;
        }
    return blocks;
}

static void set_taker(int pool, int64_t block, int taker) {
    if (taker_of == NULL)
        taker_of = own_room((uint64_t)(pool_count() + 1) * sizeof *taker_of);
    if (block >= 0 && block < fmphost_objects[pool].blocks)
        taker_of[first_block[pool] + block] = (uint16_t)taker;
}

static int taker(int pool, int64_t block) {
    return taker_of == NULL ? 0 : taker_of[first_block[pool] + block];
}

/* Blocks are handed out by a call's answer or by the release of one that waited for it, and given back where nobody waits. */
void pools_event(const struct context *caller, const struct answer *answer) {
    bool accepted = is_accepted(caller, answer) && caller->named >= 0;
    if (accepted && (caller->call->does & RETURNS_BLOCK))
        set_taker(caller->named, caller->argument[1], 0);
    if (accepted && (caller->call->does & GETS_BLOCK))
        set_taker(caller->named, answer->value, (int)(caller - contexts) + 1);
    for (int i = 0; i < answer->releases; i++) {
        const struct context *released = context_of_task(answer->release[i].task);
        if ((released->call->does & GETS_BLOCK) && answer->release[i].code == 0 && released->named >= 0)
            set_taker(released->named, answer->release[i].value, (int)(released - contexts) + 1);
    }
}

static int pool_at(uintptr_t at) {
    for (int i = 0; i < fmphost_object_count; i++) {
        const struct fmphost_object *pool = &fmphost_objects[i];
        if (pool->kind == FMPHOST_MPF && at - (uintptr_t)pool->memory < pool->size * (size_t)pool->blocks)
            return i;
    }
    return -1;
}

void pools_touch(uintptr_t at, unsigned size, bool writes) {
    int pool = pool_at(at);
    if (pool < 0)
        return;
    const struct fmphost_object *own = &fmphost_objects[pool];
    int64_t block = (int64_t)((at - (uintptr_t)own->memory) / own->size);
    size_t byte = (at - (uintptr_t)own->memory) % own->size;
    const char *does = writes ? "writes" : "reads";
    if (byte + size > own->length)
        end_with_place(BLOCK, "%s %s beyond block %d of %s, byte %zu of %zu", context_name((int)(running - contexts)), does, (int)block, own->name,
                       byte + size - 1, own->length);
    if (taker(pool, block) == 0)
        end_with_place(BLOCK, "%s %s block %d of %s, which is not handed out", context_name((int)(running - contexts)), does, (int)block, own->name);
}

bool pools_kept(int pool, int *block, int *who) {
    for (*block = 0; *block < fmphost_objects[pool].blocks; ++*block)
        if (taker(pool, *block) != 0) {
            *who = taker(pool, *block) - 1;
            return true;
        }
    return false;
}

uint64_t pools_hash(int pool) {
    uint64_t sum = 0;
    for (int64_t block = 0; block < fmphost_objects[pool].blocks; block++)
        if (taker(pool, block) != 0)
            sum = (sum ^ (uint64_t)(block + 1)) * 0x9e3779b97f4a7c15u;
    return sum;
}
