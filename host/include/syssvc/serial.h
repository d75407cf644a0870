/* A port that reads what --serial gives it, a character for each read, and logs what is written. A read waits as a task does: dly_tsk(0). */
#ifndef TOPPERS_SERIAL_H
#define TOPPERS_SERIAL_H
#include "../t_stddef.h"
#define IOCTL_NULL 0U
#define IOCTL_ECHO 0x0001U
#define IOCTL_CRLF 0x0010U
#define IOCTL_FCSND 0x0100U
#define IOCTL_FCRCV 0x0200U
#pragma GCC visibility push(default)
extern ER serial_opn_por(ID portid);
extern ER serial_cls_por(ID portid);
extern ER_UINT serial_rea_dat(ID portid, char *buf, uint_t len);
extern ER_UINT serial_wri_dat(ID portid, const char *buf, uint_t len);
extern ER serial_ctl_por(ID portid, uint_t ioctl);
#pragma GCC visibility pop
#endif
