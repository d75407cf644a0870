/* Calls that are refused, where the program does not look at the code. */
#ifndef REFUSED_H
#define REFUSED_H
#include "kernel.h"

void refused_make(void);
void refused_call(ER code);                                  /* the call of who runs was answered so */
void refused_told(ER code, const char *file, int line);      /* the program told t_perror of it */
#endif
