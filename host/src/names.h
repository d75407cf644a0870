/* Names of places in code and of variables, for reports: asked of addr2line and nm, which come with the compiler. */
#ifndef NAMES_H
#define NAMES_H
#include <stdbool.h>
#include <stdint.h>
const char *place_name(uintptr_t code);      /* "function file:line" */
bool place_in_source(uintptr_t code, char *file, uint64_t room, int *line); /* its path, as the compiler was given it */
const char *variable_name(uintptr_t address);
const char *address_name(uint64_t value);    /* of what a pointer points to, or NULL where it is none */
bool variable_range(const char *name, uintptr_t *at, uint64_t *size);         /* false where there is none of that name, or there are several */
void each_function(void (*see)(uintptr_t code, const char *name)); /* of the program, in the order of its code */
#endif
