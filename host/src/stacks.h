/* How much of its stack the project's code used, for each task and handler: the most of all runs. */
#ifndef STACKS_H
#define STACKS_H
#include <stdint.h>
struct context;

void stacks_make(void);
void stacks_forget(void);                                /* all is gone through again */
void stacks_enter(uintptr_t frame);                      /* the hook's frame: the function that called it has its own by then */
void stacks_touch(struct context *me, uintptr_t at, uintptr_t place); /* an access below all that it used so far, as of an array whose size varies */
void stacks_tell(void);
#endif
