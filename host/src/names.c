#define _GNU_SOURCE
#include "names.h"
#include "contexts.h"
#include "process.h"
#include <link.h>
#include <stdio.h>
#include <stdlib.h>
#include <string.h>
#include <unistd.h>

static uintptr_t base;

static int first_object(struct dl_phdr_info *info, size_t size, void *into) {
    (void)size;
    *(uintptr_t *)into = info->dlpi_addr;
    return 1; /* the program itself is the first */
}

static uintptr_t load_address(void) {
    if (base == 0)
        dl_iterate_phdr(first_object, &base);
    return base;
}

/* What a tool says of the program's own file: its words before and after that. */
static FILE *ask_tool(const char *words, const char *behind) {
    char path[4096], command[9000];
    ssize_t length = readlink("/proc/self/exe", path, sizeof path - 1);
    if (length < 0)
        return NULL;
    path[length] = '\0';
    snprintf(command, sizeof command, "%s", words);
    add_quoted(command, sizeof command, path);
    strcat(command, behind);
    return popen(command, "r");
}

/* Where addr2line is not there or knows nothing, the address does: `addr2line -e PROGRAM` makes a line of it. */
static void ask_place(uintptr_t code, char *name, size_t room) {
    char function[512] = "?", place[400] = "?";
    uintptr_t address = code - load_address() - 1; /* of the call, not of what comes after it */
    char behind[64];
    snprintf(behind, sizeof behind, " 0x%lx 2>/dev/null", (unsigned long)address);
    FILE *tool = ask_tool("addr2line -s -f -e", behind);
    if (tool != NULL) {
        if (fgets(function, sizeof function, tool) && fgets(place, sizeof place, tool)) {
            function[strcspn(function, "\n")] = '\0';
            place[strcspn(place, " \n")] = '\0';
        }
        pclose(tool);
    }
    if (function[0] == '?')
        snprintf(name, room, "0x%lx", (unsigned long)address);
    else
        snprintf(name, room, "%s %s", function, place);
}

bool place_in_source(uintptr_t code, char *file, uint64_t room, int *line) {
    char behind[64];
    snprintf(behind, sizeof behind, " 0x%lx 2>/dev/null", (unsigned long)(code - load_address() - 1));
    FILE *tool = ask_tool("addr2line -e", behind);
    bool told = tool != NULL && fgets(file, (int)room, tool) != NULL;
    char *colon = told ? strrchr(file, ':') : NULL;
    if (tool != NULL)
        pclose(tool);
    if (colon == NULL)
        return false;
    *line = atoi(colon + 1);
    *colon = '\0';
    return *line > 0;
}

const char *place_name(uintptr_t code) {
    enum { MOST_KNOWN = 256 }; /* an order names few places often */
    static struct { uintptr_t code; char name[1024]; } known[MOST_KNOWN];
    static int count;
    for (int i = 0; i < count; i++)
        if (known[i].code == code)
            return known[i].name;
    int at = count < MOST_KNOWN ? count++ : MOST_KNOWN - 1;
    known[at].code = code;
    ask_place(code, known[at].name, sizeof known[at].name);
    return known[at].name;
}

static bool in_block(uintptr_t address, char *name, size_t room) {
    for (int i = 0; i < fmphost_object_count; i++) {
        const struct fmphost_object *pool = &fmphost_objects[i];
        uintptr_t from = (uintptr_t)pool->memory;
        if (pool->kind != FMPHOST_MPF || address < from || address >= from + pool->size * (size_t)pool->blocks)
            continue;
        snprintf(name, room, "block %zu of %s, byte %zu", (address - from) / pool->size, pool->name, (address - from) % pool->size);
        return true;
    }
    return false;
}

static void ask_symbol(uintptr_t address, char *name, size_t room) {
    FILE *tool = ask_tool("nm -nS --defined-only", " 2>/dev/null");
    char line[700], symbol[512];
    unsigned long at, size, wanted = address - load_address();
    char type;
    while (tool != NULL && fgets(line, sizeof line, tool))
        if (sscanf(line, "%lx %lx %c %511s", &at, &size, &type, symbol) == 4 && wanted >= at && wanted < at + size) {
            if (wanted == at)
                snprintf(name, room, "%s", symbol);
            else
                snprintf(name, room, "%s, byte %lu", symbol, wanted - at);
        }
    if (tool != NULL)
        pclose(tool);
}

/* A local static variable has a number behind its name (gcc) or its function before it (clang). */
bool variable_range(const char *name, uintptr_t *from, uint64_t *bytes) {
    FILE *tool = ask_tool("nm -nS --defined-only", " 2>/dev/null");
    char line[700], symbol[512], type;
    unsigned long at, size, found = 0;
    while (tool != NULL && fgets(line, sizeof line, tool)) {
        if (sscanf(line, "%lx %lx %c %511s", &at, &size, &type, symbol) != 4 || strchr("bBdDsSvV", type) == NULL)
            continue;
        const char *behind = strrchr(symbol, '.');
        size_t length = strcspn(symbol, ".");
        if ((strlen(name) == length && strncmp(symbol, name, length) == 0) || (behind != NULL && strcmp(behind + 1, name) == 0)) {
            found++;
            *from = at + load_address(), *bytes = size;
        }
    }
    if (tool != NULL)
        pclose(tool);
    return found == 1;
}

void each_function(void (*see)(uintptr_t code, const char *name)) {
    FILE *tool = ask_tool("nm -n --defined-only", " 2>/dev/null");
    char line[700], symbol[512], type;
    unsigned long at;
    while (tool != NULL && fgets(line, sizeof line, tool))
        if (sscanf(line, "%lx %c %511s", &at, &type, symbol) == 3 && (type == 't' || type == 'T'))
            see(at + load_address(), symbol);
    if (tool != NULL)
        pclose(tool);
}

const char *variable_name(uintptr_t address) {
    enum { MOST_KNOWN = 256 };
    static struct { uintptr_t address; char name[600]; } known[MOST_KNOWN];
    static int count;
    for (int i = 0; i < count; i++)
        if (known[i].address == address)
            return known[i].name;
    int at = count < MOST_KNOWN ? count++ : MOST_KNOWN - 1;
    char *name = known[at].name;
    size_t room = sizeof known[at].name;
    known[at].address = address;
    snprintf(name, room, "0x%lx", (unsigned long)address);
    if (owner_of_stack(address) >= 0)
        snprintf(name, room, "a variable on %s's stack", context_name(owner_of_stack(address)));
    else if (!in_block(address, name, room))
        ask_symbol(address, name, room);
    return name;
}

/* Where the linker has laid the program's code and variables. */
extern char __executable_start[], end[];

const char *address_name(uint64_t value) {
    uintptr_t address = (uintptr_t)value;
    char block[600];
    bool own = address >= (uintptr_t)__executable_start && address < (uintptr_t)end;
    if (!own && owner_of_stack(address) < 0 && !in_block(address, block, sizeof block))
        return NULL;
    const char *name = variable_name(address);
    return strncmp(name, "0x", 2) == 0 ? NULL : name;
}
