#include <kernel.h>
#define LOGTASK_PRIORITY	(TMIN_TPRI + 2)
#define LOGTASK_STACK_SIZE	1024
#define LOGTASK_PORTID	1
