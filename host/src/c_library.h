/* What the C library's functions read and write of the program's memory: their accesses are made known before they do. */
#ifndef C_LIBRARY_H
#define C_LIBRARY_H
#include <stdarg.h>
#include <stddef.h>
#include <stdint.h>

void string_reads(const void *at, size_t size, uintptr_t place);
void string_writes(void *at, size_t size, uintptr_t place);
void format_reads(const char *form, va_list values, uintptr_t place); /* each text that a %s names */
#endif
