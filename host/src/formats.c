/* The texts that a format of printf reads: each of its values is passed over by its type. */
#include "c_library.h"
#include <stdbool.h>
#include <stdint.h>
#include <stdlib.h>
#include <string.h>
#include <wchar.h>

struct conversion {
    long precision;   /* -1 where there is none */
    int longs, shorts; /* how often l or h stands */
    bool largest, size, difference, long_double;
    char kind;
};

static const char *read_number(const char *at, va_list *values, long *number) {
    if (*at == '*') {
        *number = va_arg(*values, int);
        return at + 1;
    }
    return at + strspn(at, "0123456789");
}

/* What stands between `%` and the letter of the conversion. */
static const char *read_conversion(const char *at, va_list *values, struct conversion *one) {
    long width;
    *one = (struct conversion){.precision = -1};
    at += strspn(at, "-+ #0'");
    at = read_number(at, values, &width);
    if (*at == '.') {
        one->precision = strtol(at + 1, NULL, 10);
        at = read_number(at + 1, values, &one->precision);
    }
    for (; *at != '\0' && strchr("hlLqjzt", *at); at++) {
        one->longs += (*at == 'l') + 2 * (*at == 'q');
        one->shorts += *at == 'h';
        one->long_double |= *at == 'L';
        one->largest |= *at == 'j';
        one->size |= *at == 'z';
        one->difference |= *at == 't';
    }
    one->kind = *at;
    return *at == '\0' ? at : at + 1;
}

static void pass_integer(const struct conversion *one, va_list *values) {
    if (one->longs > 1 || one->largest)
        (void)va_arg(*values, long long);
    else if (one->longs == 1 || one->size || one->difference)
        (void)va_arg(*values, long);
    else
        (void)va_arg(*values, int);
}

static void pass_value(const struct conversion *one, va_list *values, uintptr_t place) {
    if (strchr("diouxXc", one->kind))
        pass_integer(one, values);
    else if (strchr("fFeEgGaA", one->kind) && one->long_double)
        (void)va_arg(*values, long double);
    else if (strchr("fFeEgGaA", one->kind))
        (void)va_arg(*values, double);
    else if (one->kind == 's' && one->longs == 0) {
        const char *text = va_arg(*values, const char *);
        size_t length = text == NULL ? 0 : one->precision >= 0 ? strnlen(text, (size_t)one->precision) : strlen(text);
        bool ended = one->precision < 0 || length < (size_t)one->precision;
        string_reads(text, text == NULL ? 0 : length + ended, place);
    } else if (strchr("pnsS", one->kind))
        (void)va_arg(*values, void *);
}

void format_reads(const char *form, va_list given, uintptr_t place) {
    va_list values;
    struct conversion one;
    va_copy(values, given);
    while (*form != '\0') {
        form += strcspn(form, "%");
        if (form[0] == '%' && form[1] == '%')
            form += 2;
        else if (form[0] == '%') {
            form = read_conversion(form + 1, &values, &one);
            if (one.kind != '\0')
                pass_value(&one, &values, place);
        }
    }
    va_end(values);
}
