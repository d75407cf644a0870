/*
 * The program's memory from malloc: the linker's --wrap brings its calls here. A block that is handed out anew has forgotten who used it before,
 * since the allocator orders its hands; one that is freed is as if it were written, so that whoever still uses it races with that.
 */
#include "memory.h"
#include "run.h"
#include "c_library.h"
#include <malloc.h>
#include <stddef.h>
#include <string.h>
#define PUBLIC __attribute__((visibility("default")))
#define PLACE ((uintptr_t)__builtin_return_address(0))

void *__real_malloc(size_t size);
void *__real_calloc(size_t count, size_t size);
void *__real_realloc(void *block, size_t size);
void __real_free(void *block);
PUBLIC void *__wrap_malloc(size_t size);
PUBLIC void *__wrap_calloc(size_t count, size_t size);
PUBLIC void *__wrap_realloc(void *block, size_t size);
PUBLIC void __wrap_free(void *block);
PUBLIC char *__wrap_strdup(const char *text);
PUBLIC char *__wrap_strndup(const char *text, size_t most);

static void *given(void *block) {
    if (block != NULL && running != NULL)
        memory_given((uintptr_t)block, malloc_usable_size(block));
    return block;
}

static void taken_back(void *block, uintptr_t place) {
    if (block != NULL && running != NULL)
        memory_freed((uintptr_t)block, malloc_usable_size(block), place);
}

void *__wrap_malloc(size_t size) {
    return given(__real_malloc(size));
}

void *__wrap_calloc(size_t count, size_t size) {
    return given(__real_calloc(count, size));
}

/* As if it were a new block, into which this one's bytes are copied. */
void *__wrap_realloc(void *block, size_t size) {
    taken_back(block, PLACE);
    return given(__real_realloc(block, size));
}

void __wrap_free(void *block) {
    taken_back(block, PLACE);
    __real_free(block);
}

static char *copied(const char *text, size_t length, uintptr_t place) {
    string_reads(text, length, place);
    char *copy = given(__real_malloc(length + 1));
    if (copy == NULL)
        return NULL;
    memcpy(copy, text, length);
    copy[length] = '\0';
    return copy;
}

char *__wrap_strdup(const char *text) {
    return copied(text, strlen(text), PLACE);
}

char *__wrap_strndup(const char *text, size_t most) {
    return copied(text, strnlen(text, most), PLACE);
}
