/*
 * The types and codes of TOPPERS' t_stddef.h, as far as programs of the profile use them. Widths are those of a host with an int of 32
 * bits and pointers of 64; a program that keeps to the types' names sees no difference.
 */
#ifndef TOPPERS_T_STDDEF_H
#define TOPPERS_T_STDDEF_H
#include <stddef.h>
#include <stdint.h>
#include <stdbool.h>
#include <limits.h>

typedef int bool_t;
typedef signed char char_t;
typedef signed int int_t;
typedef unsigned int uint_t;
typedef signed long long_t;
typedef unsigned long ulong_t;
typedef float float32_t;
typedef double double64_t;

typedef int_t FN;
typedef int_t ER;
typedef int_t ID;
typedef uint_t ATR;
typedef uint_t STAT;
typedef uint_t MODE;
typedef int_t PRI;
typedef size_t SIZE;
typedef int_t TMO;
typedef uint_t RELTIM;
typedef ulong_t SYSTIM;
typedef ulong_t SYSUTM;
typedef void (*FP)(void);
typedef int_t ER_BOOL;
typedef int_t ER_ID;
typedef int_t ER_UINT;
typedef intptr_t EXINF;

#define E_OK 0
#define E_SYS (-5)
#define E_NOSPT (-9)
#define E_RSFN (-10)
#define E_RSATR (-11)
#define E_PAR (-17)
#define E_ID (-18)
#define E_CTX (-25)
#define E_MACV (-26)
#define E_OACV (-27)
#define E_ILUSE (-28)
#define E_NOMEM (-33)
#define E_NOID (-34)
#define E_NORES (-35)
#define E_OBJ (-41)
#define E_NOEXS (-42)
#define E_QOVR (-43)
#define E_RLWAI (-49)
#define E_TMOUT (-50)
#define E_DLT (-51)
#define E_CLS (-52)
#define E_WBLK (-57)
#define E_BOVR (-58)

#define TA_NULL 0U
#define TMO_POL 0
#define TMO_FEVR (-1)
#define TMO_NBLK (-2)

#define ERCD(mercd, sercd) ((ER)((((uint_t)(sercd)) << 8) | (((uint_t)(mercd)) & 0xffU)))
#define MERCD(ercd) ((ER)((int8_t)(ercd)))
#define SERCD(ercd) ((ER)((ercd) >> 8))

#define TOPPERS_STR(text) #text
#define TOPPERS_ROUND_SZ(size, unit) (((size) + (unit) - 1) & ~((unit) - 1))
#define Inline static inline
#ifndef throw
#define throw()
#endif
#ifndef NULL
#define NULL ((void *)0)
#endif

/* A claim of the program: a run in which it is false ends there, and its order is told. TOPPERS' own name, and one for tests alone. */
#pragma GCC visibility push(default)
extern void fmphost_claim(bool holds, const char *text, const char *file, int line);
#pragma GCC visibility pop
#define assert(claim) fmphost_claim((claim) ? true : false, #claim, __FILE__, __LINE__)
#define FMP_ASSERT(claim) fmphost_claim((claim) ? true : false, #claim, __FILE__, __LINE__)
#endif
