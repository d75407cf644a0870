/* The blocks of pools: which are handed out, and that nobody uses another, or what lies behind one. */
#ifndef POOLS_H
#define POOLS_H
#include "contexts.h"

void pools_event(const struct context *caller, const struct answer *answer);
void pools_touch(uintptr_t at, unsigned size, bool writes); /* by who runs: the run ends where a block is used that nobody has, or what is behind one */
bool pools_kept(int pool, int *block, int *taker);          /* a block of it that was never given back, and the task or handler that got it */
uint64_t pools_hash(int pool);
#endif
