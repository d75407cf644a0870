/* The kernel that answers: fmpsim behind two pipes (pipes.c), or the library in this process (in_process.c), where fmphost.mk has FMPHOST_FMP. To
 * each event it answers the lines that `fmpsim calls --state` writes of it, and so it does once at boot, to no event. */
#ifndef MACHINE_H
#define MACHINE_H

enum { MACHINE_WAITS = 1 << 15, GREATEST_EVENT = 512 }; /* how many bytes of events may wait */

void machine_prepare(const char *program, const char *configuration); /* once, before all runs */
long machine_ask(const char *event, long length); /* a line with its line feed; how many bytes wait now */
void machine_skip(long answers);                  /* passes over so many answers */
const char *machine_hear(void);                   /* the next line of an answer, ended by a zero in place of its line feed */
void machine_stop(void);
#endif
