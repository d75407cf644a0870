/* One run: the processors take turns, each up to the next thing that others can see, and who goes next is a choice. */
#ifndef RUN_H
#define RUN_H
#include "contexts.h"
#include "footprint.h"
#include "options.h"

/* Who chooses: is given what may happen, and says what does, or one of these. A choice is asked for at an end, too, where nothing may happen. */
enum { ENDS_HERE = -1, LEAVES_OFF = -2, IS_CUT_SHORT = -3 };
typedef int chooser(uint32_t enabled, long turn);
void run(chooser *choose);
long run_ticks(int processor);
bool run_spins(int context);
long run_waited(int context); /* for how many ticks, as far as --patience asks */
int run_processor(const struct context *who); /* the processor on which it runs, or 0 */
struct context *run_current(int processor);   /* who runs there, or NULL */
void say_words(const char *form, ...) __attribute__((format(printf, 1, 2))); /* into the outcome */
void seal_outcome(enum ending ending);        /* all that is known of the run so far */
extern bool instrumented;                     /* the program was compiled with -fsanitize=thread */
extern struct footprint *footprint;           /* where that of the turn that is made is written */
extern bool every_tick;                       /* each tick is a turn, whatever it lowers: as a trace has them */
extern bool joins_returns;                    /* a tick's turn takes the returns of handlers along that do nothing that others see */
bool run_cut_ticks(void);                     /* a tick could come here, but for --ticks */
void run_leaves_ticks(bool ended);            /* keeps who waits here, and at an end which handlers never ran */
#endif
