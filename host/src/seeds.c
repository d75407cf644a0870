/* Seeds, one after the other or several side by side: what is told is that of the lowest that finds something, however many play. */
#define _GNU_SOURCE
#include "choices.h"
#include "findings.h"
#include "memory.h"
#include "outcome.h"
#include "process.h"
#include "report.h"
#include "searches.h"
#include <errno.h>
#include <stdatomic.h>
#include <stdio.h>
#include <stdlib.h>
#include <string.h>
#include <sys/wait.h>
#include <unistd.h>

/* Seeds are counted from the first. Those above the lowest that found something need no longer be played. */
static struct together {
    _Atomic uint64_t next, lowest;
    uint64_t last_hash;
} *together;

static void play_seed(uint64_t seed) {
    seed_begin(seed);
    kept->valid = 0;
    process_run(by_seed);
}

static void lower(uint64_t offset) {
    uint64_t now = atomic_load(&together->lowest);
    while (offset < now && !atomic_compare_exchange_weak(&together->lowest, &now, offset))
        ;
}

static void play_some(uint64_t last) {
    for (;;) {
        uint64_t offset = atomic_fetch_add(&together->next, 1);
        if (offset > last || (!options.goes_on && offset > atomic_load(&together->lowest)))
            return;
        play_seed(options.first_seed + offset);
        note_run(options.first_seed + offset, true);
        if (is_finding())
            lower(offset);
        if (offset == last)
            together->last_hash = outcome->trace_hash;
    }
}

static void play_side_by_side(uint64_t last) {
    bool failed = false;
    for (long job = 0; job < options.jobs; job++) {
        pid_t child = fork();
        if (child < 0)
            give_up("no process could be started: %s", strerror(errno));
        if (child == 0) {
            process_rooms();
            play_some(last);
            _exit(0);
        }
    }
    for (int status; wait(&status) > 0 || errno == EINTR;)
        failed |= status != 0;
    if (failed)
        exit(3);
}

/* The last one, where nothing was found, is played once more, for its trace and its order, and to see that it is the same again. */
static bool last_again(uint64_t seed) {
    recording = true;
    play_seed(seed);
    if (outcome->trace_hash != together->last_hash) {
        fprintf(stderr, "fmphost: seed %llu\n", (unsigned long long)seed);
        tell_unsteady();
        return false;
    }
    write_files();
    if (options.logs)
        log_tell();
    return true;
}

int play_seeds(void) {
    uint64_t last = options.last_seed - options.first_seed;
    bool complete = (uint64_t)options.most_runs > last;
    if (!complete)
        last = (uint64_t)options.most_runs - 1;
    learn_words();
    together = shared_room(sizeof *together);
    together->lowest = UINT64_MAX;
    if (options.jobs > 1)
        play_side_by_side(last);
    else
        play_some(last);
    end_progress();
    bool steady = found_so_far() ? tell_findings("seed") : last_again(options.first_seed + last);
    int status = tell_summary("seed", complete);
    return steady ? status : 3;
}
