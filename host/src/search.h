/* Goes through every order, depth first, each run from the beginning. */
#ifndef SEARCH_H
#define SEARCH_H
#include "run.h"

void search_make(void);
chooser search_choose;          /* in the run */
bool search_next(void);         /* after a run: is there another order, and which */
void search_anew(void);         /* points were learned: all orders again */
long search_common(void);       /* how many answers the next run has in common with the last */
extern long search_pruned;      /* runs that were left off, as all that could happen is in others */
bool search_limited(void);      /* --preemptions left orders out */
#endif
