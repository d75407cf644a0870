/* What ran in some run, and what never did: tasks, handlers, and the functions of the project's files. */
#ifndef COVERAGE_H
#define COVERAGE_H
#include <stdbool.h>
#include <stdint.h>

void coverage_make(void);
void coverage_forget(void);               /* what ran so far: runs begin anew */
void coverage_function(uintptr_t code);   /* a function of the project begins */
void coverage_object(int object);         /* a task or handler begins */
void coverage_counts(int object);         /* a task or handler that has ticks left */
bool coverage_waited(char *words, unsigned long room); /* names the handlers that counted ticks and never ran */
bool coverage_counted(void);              /* some handler had ticks left, or some task in its wait */
void coverage_tell(void);                 /* what never ran, in a line on standard error */
#endif
