/* A process for each run, so that each begins with the program's variables as at boot, and one that crashes takes nothing with it. */
#ifndef PROCESS_H
#define PROCESS_H
#include "run.h"

void process_run(chooser *choose);   /* what became of it is in the outcome */
void process_rooms(void);            /* an outcome, kept answers and a trace of this process's own runs */
void learn_words(void);
bool is_finding(void);
extern long learned_before;          /* how much was learned when the run began */
void add_quoted(char *command, uint64_t room, const char *text); /* as a word of a shell */
#endif
