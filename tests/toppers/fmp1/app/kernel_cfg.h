/* As the kernel's own would be: it is not to be read. */
#ifndef TOPPERS_KERNEL_CFG_H
#define TOPPERS_KERNEL_CFG_H
#define TASK1_1	3
#endif
