/* The kernel behind two pipes: `fmpsim calls --state CFG -`. */
#define _GNU_SOURCE
#include "machine.h"
#include "outcome.h"
#include <errno.h>
#include <fcntl.h>
#include <spawn.h>
#include <string.h>
#include <sys/wait.h>
#include <unistd.h>

extern char **environ;

static int to_kernel, from_kernel;
static pid_t kernel; /* 0 until it is needed */
static const char *kernel_program, *kernel_configuration;
static char unsent[MACHINE_WAITS]; /* events that are not asked for yet */
static long unsent_length;
static char heard[1 << 16];
static long heard_from, heard_to;

void machine_prepare(const char *program, const char *configuration) {
    kernel_program = program;
    kernel_configuration = configuration;
}

static void start_kernel(void) {
    int there[2], back[2];
    char *arguments[] = {(char *)kernel_program, "calls", "--state", "--color=never", (char *)kernel_configuration, "-", NULL};
    posix_spawn_file_actions_t actions;
    if (pipe2(there, O_CLOEXEC) != 0 || pipe2(back, O_CLOEXEC) != 0)
        give_up("no pipe to fmpsim");
    posix_spawn_file_actions_init(&actions);
    posix_spawn_file_actions_adddup2(&actions, there[0], 0);
    posix_spawn_file_actions_adddup2(&actions, back[1], 1);
    if (posix_spawnp(&kernel, kernel_program, &actions, NULL, arguments, environ) != 0)
        give_up("fmpsim is not found (%s): name it with --fmpsim or FMPSIM", kernel_program);
    posix_spawn_file_actions_destroy(&actions);
    close(there[0]);
    close(back[1]);
    to_kernel = there[1];
    from_kernel = back[0];
}

static void send_all(void) {
    for (long sent = 0; sent < unsent_length;) {
        ssize_t wrote = write(to_kernel, unsent + sent, (size_t)(unsent_length - sent));
        if (wrote < 0 && errno != EINTR)
            give_up("fmpsim has ended before the run: what it told stands above");
        if (wrote > 0)
            sent += wrote;
    }
    unsent_length = 0;
}

const char *machine_hear(void) {
    if (kernel == 0)
        start_kernel();
    if (unsent_length > 0)
        send_all();
    for (;;) {
        char *end = memchr(heard + heard_from, '\n', (size_t)(heard_to - heard_from));
        if (end != NULL) {
            const char *line = heard + heard_from;
            *end = '\0';
            heard_from = end + 1 - heard;
            return line;
        }
        memmove(heard, heard + heard_from, (size_t)(heard_to - heard_from));
        heard_to -= heard_from;
        heard_from = 0;
        if (heard_to == sizeof heard)
            give_up("fmpsim writes a line that is too long");
        ssize_t got = read(from_kernel, heard + heard_to, sizeof heard - (size_t)heard_to);
        if (got == 0 || (got < 0 && errno != EINTR))
            give_up("fmpsim has ended before the run: what it told stands above");
        if (got > 0)
            heard_to += got;
    }
}

long machine_ask(const char *event, long length) {
    memcpy(unsent + unsent_length, event, (size_t)length);
    unsent_length += length;
    return unsent_length;
}

void machine_skip(long answers) {
    for (; answers > 0; answers--)
        while (strcmp(machine_hear(), "  end") != 0)
            ;
}

void machine_stop(void) {
    if (kernel == 0)
        return;
    close(to_kernel);
    close(from_kernel);
    int status;
    waitpid(kernel, &status, 0);
}
