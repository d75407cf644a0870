/* The header of the sample program, with its priorities. */
#include <kernel.h>

#define MAIN_PRIORITY	5
#define MID_PRIORITY	10
#define CYC_TIME	2
#ifndef STACK_SIZE
#define STACK_SIZE	4096
#endif
#ifndef TASK_PORTID
#define TASK_PORTID	1
#endif

#ifndef TOPPERS_MACRO_ONLY
extern void	main_task(intptr_t exinf);
extern void	task(intptr_t exinf);
extern void	cyclic_handler(intptr_t exinf);
extern void	alarm_handler(intptr_t exinf);
#endif
