/* What goes wrong in other ways than by order: each told, with the seed, and none harms the runner. HOW says which. */
#include "kernel.h"
#include "kernel_cfg.h"
#include <pthread.h>
#include <setjmp.h>
#include <signal.h>
#include <stdlib.h>
#include <string.h>
#include <time.h>
#include <unistd.h>

extern void c_claim(int n);
static jmp_buf kept;

static long now(void)
{
    struct timespec time;
    clock_gettime(CLOCK_MONOTONIC, &time);
    return time.tv_nsec >> 4;
}

static int deep(volatile int *n)
{
    volatile int here[1000];
    here[0] = *n + 1;
    return here[0] < 0 ? 0 : deep(here) + here[0];
}

/* Each frame is larger than the page below a stack. */
static int wide(volatile char *n)
{
    volatile char here[40000];
    here[0] = n[0] + 1;
    return here[0] < 0 ? 0 : wide(here) + here[0];
}

void clock_handler(intptr_t exinf)
{
    const char *how = getenv("HOW");
    if (!strcmp(how, "handler waits"))
        assert(slp_tsk() == E_CTX);
    if (!strcmp(how, "handler ends"))
        assert(ext_tsk() == E_CTX);
    if (!strcmp(how, "handler aborts"))
        abort();
}

/* It comes first, and keeps a place of its own to which BAD jumps. */
void other_task(intptr_t exinf)
{
    if (setjmp(kept) == 0)
        slp_tsk();
    else if (strcmp(getenv("HOW"), "jump and end") != 0)
        sns_dsp();
}

static void *thread(void *value)
{
    return value;
}

/* What would end this process, or make another one of it. */
static void leave(const char *how)
{
    pthread_t other;
    char *words[] = {"true", NULL};
    if (!strcmp(how, "_exit"))
        _exit(7);
    if (!strcmp(how, "quick_exit"))
        quick_exit(7);
    if (!strcmp(how, "kill"))
        kill(getpid(), SIGKILL);
    if (!strcmp(how, "stop"))
        raise(SIGSTOP);
    if (!strcmp(how, "killed") && system("kill -9 $PPID") != 0)
        sns_loc();
    if (!strcmp(how, "fork"))
        fork();
    if (!strcmp(how, "thread"))
        pthread_create(&other, NULL, thread, NULL);
    if (!strcmp(how, "exec"))
        execvp("true", words);
}

void bad_task(intptr_t exinf)
{
    const char *how = getenv("HOW");
    int n = 0, zero = 0;
    get_tid(&n);
    leave(how);
    if (!strcmp(how, "null"))
        *(volatile int *)0 = 1;
    if (!strcmp(how, "divide"))
        n /= zero;
    if (!strcmp(how, "deep"))
        deep(&n);
    if (!strcmp(how, "wide"))
        wide((volatile char *)&n);
    if (!strcmp(how, "loop"))
        for (;;)
            n++;
    if (!strcmp(how, "exit"))
        exit(0);
    if (!strcmp(how, "abort"))
        abort();
    if (!strcmp(how, "poll"))
        while (pol_sem(1) != E_OK)
            ;
    if (!strcmp(how, "out"))
        get_tid(NULL);
    if (!strcmp(how, "time") || !strcmp(how, "unsteady"))
        for (int i = 0; i < 20; i++)
            now() & 1 ? sns_ctx() : sns_loc();
    if (!strcmp(how, "unsteady"))
        assert(zero != 0);
    if (!strncmp(how, "jump", 4))
        longjmp(kept, 1);
    if (!strcmp(how, "claim"))
        assert(n == 2);
    if (!strcmp(how, "claim of C"))
        c_claim(n);
}

#ifdef BEFORE
__attribute__((constructor)) static void before(void)
{
    sns_ctx();
}
#endif
