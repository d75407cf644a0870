/*
 * What would end a run's process behind the host's back, or make another one: a task has no process of its own. The linker's --wrap brings the
 * project's calls here. Before any task runs, as in a constructor, they are what they are.
 */
#include "outcome.h"
#include "contexts.h"
#include <pthread.h>
#include <signal.h>
#include <stdlib.h>
#include <string.h>
#include <unistd.h>
#define PUBLIC __attribute__((visibility("default")))
#define PLACE ((uintptr_t)__builtin_return_address(0))

static void leaves(uintptr_t place, const char *words, int number) {
    if (running == NULL)
        return;
    running->place = place;
    end_with_place(CRASH, words, number);
}

#define ENDS(name) \
    _Noreturn void __real_##name(int status); \
    PUBLIC _Noreturn void __wrap_##name(int status); \
    void __wrap_##name(int status) { \
        leaves(PLACE, "the program called " #name "(%d)", status); \
        __real_##name(status); \
    }
ENDS(exit)
ENDS(_exit)
ENDS(_Exit)
ENDS(quick_exit)

#define DOUBLES(name) \
    pid_t __real_##name(void); \
    PUBLIC pid_t __wrap_##name(void); \
    pid_t __wrap_##name(void) { \
        leaves(PLACE, "the program called " #name "(): a task has no process of its own", 0); \
        return __real_##name(); \
    }
DOUBLES(fork)
DOUBLES(vfork)

int __real_pthread_create(pthread_t *thread, const pthread_attr_t *how, void *(*body)(void *), void *value);
PUBLIC int __wrap_pthread_create(pthread_t *thread, const pthread_attr_t *how, void *(*body)(void *), void *value);
int __wrap_pthread_create(pthread_t *thread, const pthread_attr_t *how, void *(*body)(void *), void *value) {
    leaves(PLACE, "the program called pthread_create(): what runs beside tasks and handlers is not seen", 0);
    return __real_pthread_create(thread, how, body, value);
}

/* In place of this program another one would run on. */
#define BECOMES(name, given, ...) \
    int __real_##name(__VA_ARGS__); \
    PUBLIC int __wrap_##name(__VA_ARGS__); \
    int __wrap_##name(__VA_ARGS__) { \
        leaves(PLACE, "the program called " #name "()", 0); \
        return __real_##name given; \
    }
BECOMES(execve, (path, words, surroundings), const char *path, char *const *words, char *const *surroundings)
BECOMES(execv, (path, words), const char *path, char *const *words)
BECOMES(execvp, (path, words), const char *path, char *const *words)

/* No handler is called for these two, and a run that stands still is waited for. */
static bool ends_all(int number) {
    return number == SIGKILL || number == SIGSTOP;
}

int __real_raise(int number);
PUBLIC int __wrap_raise(int number);
int __wrap_raise(int number) {
    if (ends_all(number))
        leaves(PLACE, "the program sent itself the signal %d", number);
    return __real_raise(number);
}

int __real_kill(pid_t process, int number);
PUBLIC int __wrap_kill(pid_t process, int number);
int __wrap_kill(pid_t process, int number) {
    if (ends_all(number) && (process == getpid() || process == 0 || process == -1))
        leaves(PLACE, "the program sent itself the signal %d", number);
    return __real_kill(process, number);
}
