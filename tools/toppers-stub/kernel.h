/*
 * What tools/from-toppers reads in place of the kernel's own headers. The names of attributes, classes and objects are defined nowhere,
 * so that they stay names. What the kernel's headers define to be read once is defined, so that they are empty where they are read.
 * Their constants follow, as kernel.h, t_stddef.h and the headers of C beneath it define them, but for what -D says otherwise.
 */
#define TOPPERS_KERNEL_H
#define TOPPERS_KERNEL_CFG_H
#define TOPPERS_T_STDDEF_H
#define TOPPERS_T_STDLIB_H
#define TOPPERS_T_SYSLOG_H
#define TOPPERS_ITRON_H
#define TOPPERS_SIL_H

#ifndef TMIN_TPRI
#define TMIN_TPRI 1
#endif
#ifndef TMAX_TPRI
#define TMAX_TPRI 16
#endif
#ifndef TMIN_DPRI
#define TMIN_DPRI 1
#endif
#ifndef TMAX_DPRI
#define TMAX_DPRI 16
#endif
#ifndef TMIN_MPRI
#define TMIN_MPRI 1
#endif
#ifndef TMAX_MPRI
#define TMAX_MPRI 16
#endif
#ifndef TMIN_ISRPRI
#define TMIN_ISRPRI 1
#endif
#ifndef TMAX_ISRPRI
#define TMAX_ISRPRI 16
#endif
#ifndef TMAX_ACTCNT
#define TMAX_ACTCNT 1U
#endif
#ifndef TMAX_WUPCNT
#define TMAX_WUPCNT 1U
#endif
#ifndef TMAX_MAXSEM
#define TMAX_MAXSEM UINT_MAX
#endif
#ifndef TBIT_FLGPTN
#define TBIT_FLGPTN 32
#endif
#ifndef TBIT_TEXPTN
#define TBIT_TEXPTN 32
#endif
#ifndef CHAR_BIT
#define CHAR_BIT 8
#endif
#ifndef SCHAR_MIN
#define SCHAR_MIN (-128)
#endif
#ifndef SCHAR_MAX
#define SCHAR_MAX 127
#endif
#ifndef UCHAR_MAX
#define UCHAR_MAX 255
#endif
#ifndef SHRT_MIN
#define SHRT_MIN (-32768)
#endif
#ifndef SHRT_MAX
#define SHRT_MAX 32767
#endif
#ifndef USHRT_MAX
#define USHRT_MAX 65535
#endif
#ifndef INT_MIN
#define INT_MIN (-INT_MAX - 1)
#endif
#ifndef INT_MAX
#define INT_MAX 2147483647
#endif
#ifndef UINT_MAX
#define UINT_MAX 4294967295U
#endif
#ifndef LONG_MIN
#define LONG_MIN (-LONG_MAX - 1)
#endif
#ifndef LONG_MAX
#ifdef FMPSIM_LONG_64
#define LONG_MAX 9223372036854775807L
#else
#define LONG_MAX 2147483647L
#endif
#endif
#ifndef ULONG_MAX
#ifdef FMPSIM_LONG_64
#define ULONG_MAX 18446744073709551615UL
#else
#define ULONG_MAX 4294967295UL
#endif
#endif
#ifndef INT8_MIN
#define INT8_MIN (-128)
#endif
#ifndef INT8_MAX
#define INT8_MAX 127
#endif
#ifndef UINT8_MAX
#define UINT8_MAX 255
#endif
#ifndef INT16_MIN
#define INT16_MIN (-32768)
#endif
#ifndef INT16_MAX
#define INT16_MAX 32767
#endif
#ifndef UINT16_MAX
#define UINT16_MAX 65535
#endif
#ifndef INT32_MIN
#define INT32_MIN (-INT32_MAX - 1)
#endif
#ifndef INT32_MAX
#define INT32_MAX 2147483647
#endif
#ifndef UINT32_MAX
#define UINT32_MAX 4294967295U
#endif
#ifndef INT64_MIN
#define INT64_MIN (-INT64_MAX - 1)
#endif
#ifndef INT64_MAX
#define INT64_MAX 9223372036854775807L
#endif
#ifndef UINT64_MAX
#define UINT64_MAX 18446744073709551615UL
#endif
#ifndef INTPTR_MIN
#define INTPTR_MIN (-INTPTR_MAX - 1)
#endif
#ifndef INTPTR_MAX
#define INTPTR_MAX 9223372036854775807L
#endif
#ifndef UINTPTR_MAX
#define UINTPTR_MAX 18446744073709551615UL
#endif
#ifndef SIZE_MAX
#define SIZE_MAX 18446744073709551615UL
#endif
