/* Accesses of memory by the program: where they are points at which others may go on, and which of them race. */
#ifndef MEMORY_H
#define MEMORY_H
#include <stdbool.h>
#include <stdint.h>
#include "proved.h"

/*
 * What runs have learned of memory: words that two contexts touch, of which one writes. Kept over all runs, since a run alone sees too late.
 * In the order in which they were learned, so that a run can be made again with what was known when it began.
 */
enum { MOST_LEARNED = 1 << 13, LEARNED_SLOTS = 1 << 15 };
struct learned {
    long count;
    bool learns, full;
    bool gave[MOST_OBJECTS][MOST_OBJECTS]; /* the task or handler has given to the object, or has taken what it has to give back */
    uintptr_t word[MOST_LEARNED];
    short slot[LEARNED_SLOTS]; /* the words by their hashes, from 1 */
};
extern struct learned *learned;

void memory_make(void);
void memory_touch(uintptr_t at, unsigned size, bool writes, bool atomic, uintptr_t place); /* before the access, which may stop there */
enum atomic { LOAD, STORE, CHANGE }; /* a change reads and writes in one */
void memory_atomic(uintptr_t at, unsigned size, enum atomic kind, int order, uintptr_t place);
void memory_volatile(uintptr_t at, unsigned size, bool writes, uintptr_t place);
void memory_fence(int order);
void memory_given(uintptr_t at, uint64_t size);                   /* the allocator hands it out: nobody used it before */
void memory_freed(uintptr_t at, uint64_t size, uintptr_t place);
uint64_t memory_hash(void);      /* of words that several contexts touch */
uint64_t memory_hash_races(void); /* of what was accessed, and who knows of it: what later accesses race with */
uint64_t memory_hash_all(void);  /* of all words that were touched, but for stacks */
void learn_word(uintptr_t number);
void learned_only(long count);   /* forgets what was learned later */
#endif
