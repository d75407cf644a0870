/* What is told of runs, and the files that are written of one. */
#ifndef REPORT_H
#define REPORT_H
#include "outcome.h"

void note_run(uint64_t number, bool counts_end); /* of the outcome: a seed, or the how manieth */
void forget_runs(void);                          /* what was gone through so far is gone through again */
void leave_untried(enum left kind, const char *form, ...) __attribute__((format(printf, 2, 3))); /* something of all runs together */
void end_progress(void);                         /* before anything else is told */
int tell_summary(const char *what, bool complete);
void write_files(void);                          /* of the outcome, those that the command line names */
void write_trace(const char *path);
void report_make(void);
void turn_text(long turn, char *into, uint64_t size);
bool record_text(long record, char *into, uint64_t size);
#endif
