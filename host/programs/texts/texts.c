/* Two tasks that use a text, one of which writes it, and nothing orders them. HOW says which function of the C library one of them does it by. */
#include "kernel.h"
#include "t_syslog.h"
#include <stdarg.h>
#include <stdio.h>
#include <stdlib.h>
#include <string.h>
#include <strings.h>

static char text[32] = "12", other[] = "34";
static volatile long told;

static int compare(const void *one, const void *two)
{
    return *(const char *)one - *(const char *)two;
}

static void printed(const char *form, ...)
{
    va_list values;
    va_start(values, form);
    vsnprintf(text, sizeof text, form, values);
    va_end(values);
}

static int writes(const char *how)
{
    if (!strcmp(how, "memcpy")) memcpy(text, other, 2);
    else if (!strcmp(how, "memmove")) memmove(text, other, 2);
    else if (!strcmp(how, "memset")) memset(text, '1', 2);
    else if (!strcmp(how, "strcpy")) strcpy(text, other);
    else if (!strcmp(how, "stpcpy")) stpcpy(text, other);
    else if (!strcmp(how, "strncpy")) strncpy(text, other, 3);
    else if (!strcmp(how, "strcat")) strcat(text + 1, other);
    else if (!strcmp(how, "strncat")) strncat(text, other, 1);
    else if (!strcmp(how, "sprintf")) sprintf(text, "%d", 17);
    else if (!strcmp(how, "snprintf")) snprintf(text, 4, "%ld%c", 1234567L, 'x');
    else if (!strcmp(how, "vsnprintf")) printed("%5.1f", 2.0);
    else if (!strcmp(how, "strtol")) told = strtol(other, (char **)text, 10);
    else return 0;
    return 1;
}

static int reads(const char *how)
{
    char copy[32];
    if (!strcmp(how, "memcmp")) told = memcmp(text, other, 2);
    else if (!strcmp(how, "memchr")) told = memchr(text, 'x', 3) != NULL;
    else if (!strcmp(how, "strlen")) told = (long)strlen(text);
    else if (!strcmp(how, "strnlen")) told = (long)strnlen(text, 2);
    else if (!strcmp(how, "strcmp")) told = strcmp("12", text);
    else if (!strcmp(how, "strncmp")) told = strncmp(text, "12", 2);
    else if (!strcmp(how, "strcasecmp")) told = strcasecmp(text, other);
    else if (!strcmp(how, "strncasecmp")) told = strncasecmp(other, text, 2);
    else if (!strcmp(how, "strchr")) told = strchr(text, '2') != NULL;
    else if (!strcmp(how, "strrchr")) told = strrchr(text, '2') != NULL;
    else if (!strcmp(how, "strstr")) told = strstr(other, text) != NULL;
    else if (!strcmp(how, "strspn")) told = (long)strspn(text, "1");
    else if (!strcmp(how, "strcspn")) told = (long)strcspn(text, "x");
    else if (!strcmp(how, "strpbrk")) told = strpbrk(other, text) != NULL;
    else if (!strcmp(how, "atoi")) told = atoi(text);
    else if (!strcmp(how, "strtoul")) told = (long)strtoul(text, NULL, 10);
    else if (!strcmp(how, "strdup")) free(strdup(text));
    else if (!strcmp(how, "strndup")) free(strndup(text, 2));
    else if (!strcmp(how, "strcpy from")) strcpy(copy, text);
    else if (!strcmp(how, "memcpy from")) memcpy(copy, text, 2);
    else if (!strcmp(how, "snprintf of")) snprintf(copy, sizeof copy, "%*d%% %.2f %lld %s", 4, 1, 2.0, 3LL, text);
    else if (!strcmp(how, "syslog")) syslog(LOG_NOTICE, "%-3s %.2s", "a", text);
    else return 0;
    return 1;
}

void write_task(intptr_t exinf)
{
    if (!writes(getenv("HOW")))
        text[1] = 'x';
}

void read_task(intptr_t exinf)
{
    if (!reads(getenv("HOW")))
        told = text[1] + text[2];
}

/* What the C library does with memory besides is not seen. */
void sort_task(intptr_t exinf)
{
    qsort(other, 2, 1, compare);
}
