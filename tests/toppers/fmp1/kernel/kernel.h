/* As the kernel's own would be: it is not to be read. */
#ifndef TOPPERS_KERNEL_H
#define TOPPERS_KERNEL_H
#define TA_ACT	UINT_C(0x02)
#define TA_NULL	UINT_C(0)
#endif
