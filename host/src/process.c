#define _GNU_SOURCE
#include "process.h"
#include "choices.h"
#include "coverage.h"
#include "memory.h"
#include "outcome.h"
#include "stacks.h"
#include <errno.h>
#include <signal.h>
#include <stdio.h>
#include <stdlib.h>
#include <string.h>
#include <sys/mman.h>
#include <sys/wait.h>
#include <unistd.h>

long learned_before;

static void *room(uint64_t size, int kind) {
    void *at = mmap(NULL, size, PROT_READ | PROT_WRITE, kind | MAP_ANONYMOUS | MAP_NORESERVE, -1, 0);
    if (at == MAP_FAILED)
        give_up("no memory");
    return at;
}

void *shared_room(uint64_t size) {
    return room(size, MAP_SHARED);
}

void *own_room(uint64_t size) {
    return room(size, MAP_PRIVATE);
}

void process_rooms(void) {
    outcome = shared_room(sizeof *outcome);
    kept = shared_room(sizeof *kept);
    kept->text = shared_room(ANSWER_ROOM);
    trace_text = shared_room(ANSWER_ROOM);
}

void add_quoted(char *command, uint64_t size, const char *text) {
    size_t at = strlen(command);
    if (at + 4 * strlen(text) + 4 > size)
        give_up("a path is too long: %s", text);
    command[at++] = ' ';
    command[at++] = '\'';
    for (; *text != '\0'; text++) {
        if (*text == '\'') {
            memcpy(command + at, "'\\'", 3);
            at += 3;
        }
        command[at++] = *text;
    }
    strcpy(command + at, "'");
}

/* --- in the run's process --- */

/* The bounds of the program, and of the host's own code in it: the linker has them. */
extern char __executable_start[], etext[], __start_fmphost_text[] __attribute__((weak)), __stop_fmphost_text[] __attribute__((weak));
extern char __start_fmphost_project[] __attribute__((weak)), __stop_fmphost_project[] __attribute__((weak));

/* Where the program's code is. What the host or the C library did was for the last access or call. */
static uintptr_t crashing_code(const void *context) {
    uintptr_t code = 0;
#if defined __x86_64__
    code = (uintptr_t)((const ucontext_t *)context)->uc_mcontext.gregs[REG_RIP];
#else
    (void)context;
#endif
    bool project = code >= (uintptr_t)__start_fmphost_project && code < (uintptr_t)__stop_fmphost_project;
    bool own = code >= (uintptr_t)__start_fmphost_text && code < (uintptr_t)__stop_fmphost_text;
    bool outside = code < (uintptr_t)__executable_start || code >= (uintptr_t)etext;
    return !project && (own || outside) ? outcome->last : code + 1;
}

/* From where the code was called that crashed. */
static void keep_callers(const void *context) {
#if defined __x86_64__
    const greg_t *registers = ((const ucontext_t *)context)->uc_mcontext.gregs;
    if (recording && running != NULL)
        callers_of(running, (uintptr_t)registers[REG_RBP], outcome->crash, &outcome->callers);
#else
    (void)context;
#endif
}

static void crashed(int number, siginfo_t *info, void *context) {
    const char *whose, *who = running ? context_name((int)(running - contexts)) : "the runner";
    if (number == SIGALRM && running == NULL)
        give_up("fmpsim does not answer for %ld s", options.seconds);
    outcome->last = running ? running->place : 0;
    outcome->crash = crashing_code(context);
    keep_callers(context);
    seal_outcome(number == SIGALRM ? HANG : CRASH);
    if (number == SIGALRM)
        say_words("%s comes to no service call for %ld s", who, options.seconds);
    else if (number == SIGSEGV && on_guard((uintptr_t)info->si_addr, &whose))
        say_words("stack overflow in %s", whose);
    else if (number == SIGABRT)
        say_words("%s in %s", strsignal(number), who);
    else
        say_words("%s in %s, at address 0x%lx", strsignal(number), who, (unsigned long)(uintptr_t)info->si_addr);
    leave_run();
}

static void catch_crashes(void) {
    static unsigned char stack[1 << 16]; /* of its own, since the one that crashed may be full */
    static const int signals[] = {SIGSEGV, SIGBUS, SIGFPE, SIGILL, SIGABRT, SIGALRM};
    stack_t own = {.ss_sp = stack, .ss_size = sizeof stack};
    struct sigaction action = {.sa_sigaction = crashed, .sa_flags = SA_SIGINFO | SA_ONSTACK};
    sigaltstack(&own, NULL);
    for (size_t i = 0; i < sizeof signals / sizeof *signals; i++)
        sigaction(signals[i], &action, NULL);
}

/* With a debugger the run is made in this process, or it would have to follow into another; who leaves it comes back here. */
static ucontext_t back;
static volatile bool is_here, has_left;

void leave_run(void) {
    if (!is_here)
        _exit(0);
    is_here = false;
    has_left = true;
    running = NULL;
    setcontext(&back);
    abort();
}

static void run_here(chooser *choose) {
    is_here = true;
    getcontext(&back);
    if (has_left)
        return;
    catch_crashes();
    run(choose);
}

/* The program has called exit(), whose number the process that waits is told. */
static void left_by_exit(void) {
    outcome->last = running ? running->place : 0;
    seal_outcome(UNENDED);
}

/* --- in the one that waits for it --- */

static void look_at_status(int status) {
    if (WIFSIGNALED(status)) {
        outcome->ending = CRASH;
        outcome->crash = 0;
        say_words("%s in %s", strsignal(WTERMSIG(status)), outcome->runs >= 0 ? context_name(outcome->runs) : "the runner");
    } else if (outcome->ending == UNENDED) {
        outcome->ending = CRASH;
        say_words("the program called exit(%d)", WEXITSTATUS(status));
    } else if (outcome->ending == BROKEN)
        exit(3);
}

void process_run(chooser *choose) {
    outcome->ending = UNENDED;
    outcome->turns = outcome->events = outcome->trace_length = 0;
    outcome->runs = -1;
    outcome->crash = outcome->last = outcome->end = outcome->trace_hash = 0;
    outcome->callers.count = 0;
    outcome->callers.more = false;
    if (recording)
        log_begin();
    for (int kind = 0; kind < LEFT_KINDS; kind++)
        outcome->left[kind][0] = '\0';
    learned_before = learned->count;
    if (options.until > 0 && choose == by_replay) {
        run_here(choose);
        return;
    }
    pid_t child = fork();
    if (child < 0)
        give_up("no process could be started: %s", strerror(errno));
    if (child == 0) {
        atexit(left_by_exit);
        catch_crashes();
        run(choose);
    }
    int status;
    while (waitpid(child, &status, 0) < 0)
        if (errno != EINTR)
            give_up("a run is lost: %s", strerror(errno));
    look_at_status(status);
}

bool is_finding(void) {
    return outcome->ending >= ASLEEP;
}

/* The words that contexts share are learned in a few runs first, by fixed seeds: so what a seed does depends on the seed alone. */
void learn_words(void) {
    struct options asked = options;
    options.stalls = options.late = 0;
    learned->learns = true;
    for (uint64_t seed = 1; seed <= 8 && options.points; seed++) {
        seed_begin(seed);
        kept->valid = 0;
        process_run(by_seed);
        if (outcome->ending == CRASH || outcome->ending == HANG) /* the first run that counts will find it, too */
            break;
    }
    options = asked;
    coverage_forget();
    stacks_forget();
    learned->learns = options.mode != BY_SEEDS && options.mode != BY_REPLAY;
}
