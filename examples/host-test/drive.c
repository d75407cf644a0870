/* Runs tasks that are written as coroutines on the kernel that fmpsim plays: what a task gives to `call` is a service call, and what
   comes back is the kernel's answer to it.

       cc -o drive drive.c && ./drive FMPSIM machine.cfg

   Which task goes on is what the kernel says, so this program schedules nothing. The trace goes to standard output. */
#define _XOPEN_SOURCE 700
#include <stdbool.h>
#include <stdio.h>
#include <stdlib.h>
#include <string.h>
#include <ucontext.h>
#include <unistd.h>

enum { PROCESSORS = 2, TASKS = 2, WORD = 160, STACK = 65536 };

typedef struct {
    const char *name;
    void (*body)(void);
    const char *wanted; /* the service call that it makes next */
    char told[WORD];    /* what its last one was answered */
    ucontext_t context;
    char stack[STACK];
} Task;

static void producer(void);
static void consumer(void);

static Task tasks[TASKS] = {{.name = "PRODUCER", .body = producer}, {.name = "CONSUMER", .body = consumer}};
static Task *current;
static ucontext_t driver;

static FILE *to_kernel, *from_kernel;
static char *line;
static size_t room;
static char running[PROCESSORS + 1][WORD];
static bool requested[PROCESSORS + 1];

static void fail(const char *cause) {
    fprintf(stderr, "drive: %s\n", cause);
    exit(1);
}

/* A service call of the task that runs here. */
static const char *call(const char *text) {
    current->wanted = text;
    swapcontext(&current->context, &driver);
    return current->told;
}

/* Lets a task go on up to its next service call. One that comes to its end calls ext_tsk. */
static const char *resume(Task *task) {
    current = task;
    task->wanted = "ext_tsk()";
    swapcontext(&driver, &task->context);
    return task->wanted;
}

static Task *named(const char *name, size_t length) {
    for (Task *task = tasks; task < tasks + TASKS; task++)
        if (strlen(task->name) == length && strncmp(task->name, name, length) == 0)
            return task;
    fail("a task that has no body");
    return NULL;
}

static void read_line(void) {
    if (getline(&line, &room, from_kernel) < 0)
        fail("fmpsim ended");
}

/* Reads a state up to its end: who runs on each processor, and whether a request to it is pending. */
static void read_state(void) {
    int processor, behind;
    for (read_line(); strcmp(line, "  end\n") != 0; read_line()) {
        char task[WORD];
        if (sscanf(line, "  P%d run=%159s%n", &processor, task, &behind) == 2 && processor >= 1 && processor <= PROCESSORS) {
            strcpy(running[processor], task);
            requested[processor] = strstr(line + behind, " latch") != NULL;
        }
    }
}

/* What a task was answered: the text up to the next blank. */
static void tell(Task *task, const char *answer) {
    snprintf(task->told, WORD, "%.*s", (int)strcspn(answer, " \n"), answer);
}

/* Gives an event of the task that runs, if one does, and tells its answer to it and to each task that it released. */
static void give(int processor, const char *event, Task *caller) {
    fprintf(to_kernel, "P%d %s\n", processor, event);
    fflush(to_kernel);
    read_line();
    fputs(line, stdout);
    const char *end = strchr(line, ')');
    if (caller != NULL && end != NULL)
        tell(caller, end + 2);
    for (char *change = strstr(line, " rel="); change != NULL; change = strstr(change + 1, " rel=")) {
        char *name = change + 5;
        size_t length = strcspn(name, ":");
        tell(named(name, length), name + length + 1);
    }
    read_state();
}

/* Lets each processor in turn take its request and make the next call of its running task, until none has anything to do. */
static void play(void) {
    for (bool moved = true; moved;) {
        moved = false;
        for (int processor = 1; processor <= PROCESSORS; processor++) {
            if (requested[processor])
                give(processor, "ipi", NULL);
            if (strcmp(running[processor], "-") == 0)
                continue;
            Task *task = named(running[processor], strlen(running[processor]));
            give(processor, resume(task), task);
            moved = true;
        }
    }
}

static void start_kernel(const char *program, const char *configuration) {
    int there[2], back[2];
    if (pipe(there) != 0 || pipe(back) != 0)
        fail("no pipe");
    if (fork() == 0) {
        dup2(there[0], 0);
        dup2(back[1], 1);
        close(there[1]);
        close(back[0]);
        execlp(program, program, "calls", "--state", configuration, "-", (char *)NULL);
        _exit(127);
    }
    close(there[0]);
    close(back[1]);
    to_kernel = fdopen(there[1], "w");
    from_kernel = fdopen(back[0], "r");
    read_state();
}

static void producer(void) {
    call("snd_dtq(QUEUE, 10)");
    call("snd_dtq(QUEUE, 20)");
    call("snd_dtq(QUEUE, 30)");
}

static int sum;

static void consumer(void) {
    for (int values = 0; values < 3; values++) {
        int value = 0;
        sscanf(call("rcv_dtq(QUEUE)"), "E_OK:%d", &value);
        sum += value;
    }
}

int main(int count, char **words) {
    if (count != 3)
        fail("expected: drive FMPSIM machine.cfg");
    for (Task *task = tasks; task < tasks + TASKS; task++) {
        getcontext(&task->context);
        task->context.uc_stack.ss_sp = task->stack;
        task->context.uc_stack.ss_size = STACK;
        task->context.uc_link = &driver;
        makecontext(&task->context, task->body, 0);
    }
    start_kernel(words[1], words[2]);
    play();
    if (sum != 60)
        fail("the consumer has other values than the producer sent");
    return 0;
}
