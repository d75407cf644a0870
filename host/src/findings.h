/* What was found: one of each kind is kept, with the order that leads to it. */
#ifndef FINDINGS_H
#define FINDINGS_H
#include "outcome.h"

void findings_make(void);
void note_finding(uint64_t number); /* that of the outcome; whoever plays side by side with others keeps them away meanwhile */
void forget_findings(void);
bool found_so_far(void);
long findings_count(void);
bool tell_findings(const char *what); /* the first one, or one of each kind: each is made again first; false where one does not do the same again */
void tell_replayed(const char *what); /* that of a file, which is made once */
void tell_unsteady(void);             /* that a run did not do the same again */
#endif
