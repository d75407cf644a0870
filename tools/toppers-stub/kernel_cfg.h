/* Empty: tools/from-toppers reads it in place of the kernel's own. kernel.h has what is defined. */
