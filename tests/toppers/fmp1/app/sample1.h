/* The header of the program, with its priorities. */
#include <kernel.h>
#include "target_test.h"

#define MAIN_PRIORITY	5
#define HIGH_PRIORITY	(MAIN_PRIORITY + 4)
#define MID_PRIORITY	(HIGH_PRIORITY + 1)
#define LOW_PRIORITY	11
#define CYC_TIME	UINT_C(2000)
#ifndef STACK_SIZE
#define STACK_SIZE	4096
#endif

typedef struct {
	uint32_t	count;
} WORK;

extern void	main_task(intptr_t exinf);
extern void	task(intptr_t exinf);
static inline int
half(int count)
{
	return(count / 2);
}
