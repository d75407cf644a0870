#ifndef TOPPERS_TARGET_TIMER_H
#define TOPPERS_TARGET_TIMER_H
extern void target_timer_initialize(intptr_t exinf);
#endif
