#ifndef SAMPLE_H
#define SAMPLE_H
#include <kernel.h>
#define STACK_SIZE	4096
#define INTNO1	16
enum { MAIN_PRIORITY = 5, WORKER_PRIORITY = MAIN_PRIORITY + TMIN_TPRI };
extern void	main_task(EXINF exinf);
#endif
