#define _GNU_SOURCE
#include "clocks.h"
#include "coverage.h"
#include "findings.h"
#include "memory.h"
#include "options.h"
#include "outcome.h"
#include "machine.h"
#include "pipeline.h"
#include "places.h"
#include "process.h"
#include "refused.h"
#include "report.h"
#include "search.h"
#include "searches.h"
#include "stacks.h"
#include <signal.h>
#include <stdio.h>
#include <sys/personality.h>
#include <unistd.h>

/* The same addresses of malloc in each start of the program: a pointer that is sent through a data queue is in the trace. */
static void fix_addresses(char **words) {
    int now = personality(0xffffffff);
    if (now < 0 || (now & ADDR_NO_RANDOMIZE) || personality((unsigned long)now | ADDR_NO_RANDOMIZE) < 0 || !(personality(0xffffffff) & ADDR_NO_RANDOMIZE))
        return; /* where that is not allowed, traces with such addresses differ from one start of the program to the next */
    char path[4096];
    ssize_t length = readlink("/proc/self/exe", path, sizeof path - 1);
    if (length > 0) {
        path[length] = '\0';
        execv(path, words);
    }
    give_up("the program cannot be started anew");
}

__attribute__((visibility("default"))) int main(int count, char **words) {
    fix_addresses(words);
    read_options(count, words);
    pipeline_report(words);
    signal(SIGPIPE, SIG_IGN);
    process_rooms();
    learned = shared_room(sizeof *learned);
    contexts_make();
    clocks_make();
    memory_make();
    places_make();
    search_make();
    report_make();
    findings_make();
    recording_make();
    refused_make();
    coverage_make();
    stacks_make();
    proved_check(options.fmpsim, options.configuration);
    machine_prepare(options.fmpsim, options.configuration);
    return options.mode == BY_REPLAY ? play_file() : options.mode == BY_PLACES ? play_places() : options.mode == BY_SEEDS ? play_seeds() : play_orders();
}
