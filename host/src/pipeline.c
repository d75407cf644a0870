/*
 * There is one writer of JUnit's XML and of the Test Anything Protocol, tools/run-list: it is given a list with one run, which is this one without
 * the words that ask for it. Its status is the run's.
 */
#define _GNU_SOURCE
#include "pipeline.h"
#include "fmphost_cfg.h"
#include "options.h"
#include "outcome.h"
#include "process.h"
#include <ctype.h>
#include <errno.h>
#include <fcntl.h>
#include <stdio.h>
#include <string.h>
#include <unistd.h>

/* The project's folder, of which a name of the list has letters, digits and a few signs. */
static void name_of_project(char *name, size_t room) {
    const char *folder = fmphost_folder != NULL ? strrchr(fmphost_folder, '/') : NULL;
    snprintf(name, room, "%s", folder != NULL && isalnum((unsigned char)folder[1]) ? folder + 1 : "project");
    for (char *at = name; *at != '\0'; at++)
        if (!isascii((unsigned char)*at) || !(isalnum((unsigned char)*at) || strchr("_.-", *at) != NULL))
            *at = '_';
}

/* `project none '/where/run' '--every-order'` */
static void write_list(char *list, size_t room, const char *name, char **words) {
    char path[4096];
    ssize_t length = readlink("/proc/self/exe", path, sizeof path - 1);
    if (length < 0)
        give_up("the program's own file is not known: %s", strerror(errno));
    path[length] = '\0';
    snprintf(list, room, "%s none", name);
    add_quoted(list, room, path);
    for (words++; *words != NULL; words++)
        if (!strcmp(*words, "--junit"))
            words++;
        else if (strcmp(*words, "--tap") != 0)
            add_quoted(list, room, *words);
    strcat(list, "\n");
}

static void give_input(const char *text) {
    int ends[2];
    if (pipe(ends) != 0 || write(ends[1], text, strlen(text)) != (ssize_t)strlen(text) || dup2(ends[0], STDIN_FILENO) < 0)
        give_up("no pipe to the writer of reports: %s", strerror(errno));
    close(ends[0]);
    close(ends[1]);
}

static void silence(void) {
    int nowhere = open("/dev/null", O_WRONLY);
    if (nowhere >= 0)
        dup2(nowhere, STDOUT_FILENO);
}

void pipeline_report(char **words) {
    char list[16384], name[128], tool[4096];
    if (!options.tap && options.junit == NULL)
        return;
    name_of_project(name, sizeof name);
    write_list(list, sizeof list, name, words);
    give_input(list);
    if (!options.tap)
        silence();
    snprintf(tool, sizeof tool, "%s/run-list", fmphost_tools != NULL ? fmphost_tools : ".");
    char *command[] = {"python3", tool, "-", "--told", "--suite", name, "--fmpsim", (char *)options.fmpsim, options.junit ? "--junit" : NULL, (char *)options.junit, NULL};
    execvp(command[0], command);
    give_up("%s cannot be started, which writes reports: %s", tool, strerror(errno));
}
