/*
 * The C library's functions on memory and texts: the linker's --wrap brings the program's calls here, which are not taken as known by the compiler
 * (-fno-builtin). Each says what it is about to read and write, as one access of the calling line, and is then the library's own.
 */
#include "c_library.h"
#include "memory.h"
#include "run.h"
#include <stdio.h>
#include <stdlib.h>
#include <string.h>
#include <strings.h>
#define PLACE ((uintptr_t)__builtin_return_address(0))
/* Declared and public, as those of the C library are. */
#define WRAPPED(result, name, ...) \
    __attribute__((visibility("default"))) result __wrap_##name(__VA_ARGS__); \
    result __wrap_##name(__VA_ARGS__)

/* What is read to learn a text's length is read by the host: a crash there is that of the call. */
static void begin(uintptr_t place) {
    if (running != NULL)
        running->place = place;
}

void string_reads(const void *at, size_t size, uintptr_t place) {
    memory_touch((uintptr_t)at, (unsigned)size, false, false, place);
}

void string_writes(void *at, size_t size, uintptr_t place) {
    memory_touch((uintptr_t)at, (unsigned)size, true, false, place);
}

static void reads_text(const char *text, uintptr_t place) {
    begin(place);
    string_reads(text, strlen(text) + 1, place);
}

static void reads_most(const char *text, size_t most, uintptr_t place) {
    begin(place);
    size_t length = strnlen(text, most);
    string_reads(text, length < most ? length + 1 : most, place);
}

WRAPPED(void *, memcpy, void *to, const void *from, size_t size) {
    string_reads(from, size, PLACE);
    string_writes(to, size, PLACE);
    return memcpy(to, from, size);
}

WRAPPED(void *, memmove, void *to, const void *from, size_t size) {
    string_reads(from, size, PLACE);
    string_writes(to, size, PLACE);
    return memmove(to, from, size);
}

WRAPPED(void *, memset, void *to, int byte, size_t size) {
    string_writes(to, size, PLACE);
    return memset(to, byte, size);
}

WRAPPED(int, memcmp, const void *one, const void *other, size_t size) {
    string_reads(one, size, PLACE);
    string_reads(other, size, PLACE);
    return memcmp(one, other, size);
}

WRAPPED(void *, memchr, const void *at, int byte, size_t size) {
    string_reads(at, size, PLACE);
    return memchr(at, byte, size);
}

WRAPPED(size_t, strlen, const char *text) {
    reads_text(text, PLACE);
    return strlen(text);
}

WRAPPED(size_t, strnlen, const char *text, size_t most) {
    reads_most(text, most, PLACE);
    return strnlen(text, most);
}

WRAPPED(char *, strcpy, char *to, const char *from) {
    reads_text(from, PLACE);
    string_writes(to, strlen(from) + 1, PLACE);
    return strcpy(to, from);
}

WRAPPED(char *, stpcpy, char *to, const char *from) {
    reads_text(from, PLACE);
    string_writes(to, strlen(from) + 1, PLACE);
    return stpcpy(to, from);
}

WRAPPED(char *, strncpy, char *to, const char *from, size_t size) {
    reads_most(from, size, PLACE);
    string_writes(to, size, PLACE);
    return strncpy(to, from, size);
}

WRAPPED(char *, strcat, char *to, const char *from) {
    reads_text(from, PLACE);
    reads_text(to, PLACE);
    string_writes(to + strlen(to), strlen(from) + 1, PLACE);
    return strcat(to, from);
}

WRAPPED(char *, strncat, char *to, const char *from, size_t most) {
    reads_most(from, most, PLACE);
    reads_text(to, PLACE);
    string_writes(to + strlen(to), strnlen(from, most) + 1, PLACE);
    return strncat(to, from, most);
}

/* Two texts are read up to where they differ, or end. */
static void reads_both(const char *one, const char *other, size_t most, uintptr_t place) {
    size_t same = 0;
    begin(place);
    while (same < most && one[same] == other[same] && one[same] != '\0')
        same++;
    string_reads(one, same < most ? same + 1 : most, place);
    string_reads(other, same < most ? same + 1 : most, place);
}

WRAPPED(int, strcmp, const char *one, const char *other) {
    reads_both(one, other, SIZE_MAX, PLACE);
    return strcmp(one, other);
}

WRAPPED(int, strncmp, const char *one, const char *other, size_t most) {
    reads_both(one, other, most, PLACE);
    return strncmp(one, other, most);
}

WRAPPED(int, strcasecmp, const char *one, const char *other) {
    reads_text(one, PLACE);
    reads_text(other, PLACE);
    return strcasecmp(one, other);
}

WRAPPED(int, strncasecmp, const char *one, const char *other, size_t most) {
    reads_most(one, most, PLACE);
    reads_most(other, most, PLACE);
    return strncasecmp(one, other, most);
}

WRAPPED(char *, strchr, const char *text, int byte) {
    reads_text(text, PLACE);
    return strchr(text, byte);
}

WRAPPED(char *, strrchr, const char *text, int byte) {
    reads_text(text, PLACE);
    return strrchr(text, byte);
}

WRAPPED(char *, strstr, const char *text, const char *wanted) {
    reads_text(text, PLACE);
    reads_text(wanted, PLACE);
    return strstr(text, wanted);
}

WRAPPED(size_t, strspn, const char *text, const char *of) {
    reads_text(text, PLACE);
    reads_text(of, PLACE);
    return strspn(text, of);
}

WRAPPED(size_t, strcspn, const char *text, const char *of) {
    reads_text(text, PLACE);
    reads_text(of, PLACE);
    return strcspn(text, of);
}

WRAPPED(char *, strpbrk, const char *text, const char *of) {
    reads_text(text, PLACE);
    reads_text(of, PLACE);
    return strpbrk(text, of);
}

WRAPPED(int, atoi, const char *text) {
    reads_text(text, PLACE);
    return atoi(text);
}

WRAPPED(long, atol, const char *text) {
    reads_text(text, PLACE);
    return atol(text);
}

WRAPPED(long, strtol, const char *text, char **end, int base) {
    reads_text(text, PLACE);
    if (end != NULL)
        string_writes(end, sizeof *end, PLACE);
    return strtol(text, end, base);
}

WRAPPED(unsigned long, strtoul, const char *text, char **end, int base) {
    reads_text(text, PLACE);
    if (end != NULL)
        string_writes(end, sizeof *end, PLACE);
    return strtoul(text, end, base);
}

/* --- printing into memory --- */

static int prints(char *to, size_t size, const char *form, va_list values, uintptr_t place) {
    va_list again;
    begin(place);
    format_reads(form, values, place);
    va_copy(again, values);
    int length = vsnprintf(NULL, 0, form, again);
    va_end(again);
    if (length >= 0 && size > 0)
        string_writes(to, (size_t)length < size ? (size_t)length + 1 : size, place);
    return vsnprintf(to, size, form, values);
}

WRAPPED(int, vsnprintf, char *to, size_t size, const char *form, va_list values) {
    return prints(to, size, form, values, PLACE);
}

WRAPPED(int, vsprintf, char *to, const char *form, va_list values) {
    return prints(to, INT32_MAX, form, values, PLACE);
}

WRAPPED(int, snprintf, char *to, size_t size, const char *form, ...) {
    va_list values;
    va_start(values, form);
    int length = prints(to, size, form, values, PLACE);
    va_end(values);
    return length;
}

WRAPPED(int, sprintf, char *to, const char *form, ...) {
    va_list values;
    va_start(values, form);
    int length = prints(to, INT32_MAX, form, values, PLACE);
    va_end(values);
    return length;
}
