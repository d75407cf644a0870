#include <kernel.h>
#include "target_test.h"
#define MAIN_PRIORITY	5
#define MID_PRIORITY	10
#define BIT	31
#define TASK_ID(prc, no)	((prc) * 16 + \
				 (no))
#ifndef TOPPERS_MACRO_ONLY
#error "only the macros are wanted"
#endif
