/* The searches, and the replay of a file. */
#include "choices.h"
#include "coverage.h"
#include "findings.h"
#include "memory.h"
#include "outcome.h"
#include "places.h"
#include "process.h"
#include "report.h"
#include "search.h"
#include "searches.h"
#include "stacks.h"
#include <stdio.h>
#include <stdlib.h>
#include <string.h>

static long runs;

static bool is_enough(void) {
    return (found_so_far() && !options.goes_on) || runs >= options.most_runs;
}

static void count(bool counts_end) {
    runs++;
    note_run((uint64_t)runs, counts_end);
}

static void begin_anew(void) {
    runs = 0;
    kept->valid = 0;
    coverage_forget();
    stacks_forget();
    forget_runs();
}

/* The last run, where nothing was found: is it the same again? */
static bool last_again(void) {
    uint64_t hash = outcome->trace_hash;
    path_of_outcome();
    kept->valid = 0;
    recording = true;
    process_run(by_path);
    if (outcome->trace_hash != hash) {
        tell_unsteady();
        return false;
    }
    write_files();
    if (options.logs)
        log_tell();
    return true;
}

/* The run that is told is made again, so that it is known to be so: each finding's, or the last one. Trace and order are of the first. */
static int tell(const char *what, bool complete) {
    end_progress();
    bool steady = found_so_far() ? tell_findings(what) : last_again();
    int status = tell_summary(what, complete && steady);
    return steady ? status : 3;
}

/* --- orders --- */

int play_orders(void) {
    bool complete = false;
    learn_words();
    long words = learned->count;
    begin_anew();
    for (;;) {
        process_run(search_choose);
        /* points were missing where words were learned, so what was gone through may not be all */
        if (words != learned->count && (!is_finding() || options.goes_on)) {
            words = learned->count;
            search_anew();
            begin_anew();
            continue;
        }
        count(outcome->ending != LEFT_OFF);
        if (is_enough())
            break;
        complete = !search_next();
        if (complete)
            break;
        kept->valid = search_common();
    }
    return tell("order", complete);
}

/* --- places --- */

/* Each place is gone on from once by all that may happen there, in the order in which they were found: so what is found is shortest. */
static long from_place;
static int wanted;

static int by_place(uint32_t enabled, long turn) {
    if (turn < path.length)
        return path.action[turn];
    if (from_place >= 0 && turn == path.length)
        return wanted;
    bool is_new;
    long here = places_here(from_place, wanted, &is_new);
    if (is_new) {
        places->place[here].enabled = enabled;
        places->place[here].cut_ticks = run_cut_ticks();
        if (places->place[here].cut_ticks)
            run_leaves_ticks(false);
    }
    return enabled == 0 ? ENDS_HERE : LEAVES_OFF;
}

/* The answers that the last run began with and this one begins with, too. */
static void keep_common(void) {
    long common = 0;
    while (common < path.length && common < outcome->turns && outcome->turn[common].action == path.action[common])
        common++;
    kept->valid = common < outcome->turns ? outcome->turn[common].answers_before : 0;
}

static bool go_on_from(long place, int action) {
    from_place = place;
    wanted = action;
    path.length = place < 0 ? 0 : places_path(place, path.action, options.turns - 1);
    if (path.length < 0)
        return false;
    if (place >= 0)
        keep_common();
    process_run(by_place);
    count(outcome->ending != LEFT_OFF);
    return true;
}

/* Whether each place was gone on from. It ends early where words are learned, since all has to be gone through again then. */
static bool go_through(long words) {
    bool complete = go_on_from(-1, 0);
    for (long place = 0; place < places->count && words == learned->count && complete && !is_enough(); place++)
        for (int a = 0; a < fmphost_processors * ACTS && words == learned->count && !is_enough(); a++)
            if ((places->place[place].enabled & 1u << a) && !go_on_from(place, a))
                complete = false;
    return complete && words == learned->count && !is_enough();
}

static void look_for_stuck(void) {
    int task;
    long place = places_stuck(&task, true);
    if (place < 0 || (path.length = places_path(place, path.action, options.turns - 1)) < 0)
        return;
    kept->valid = 0;
    process_run(by_path);
    outcome->ending = ASLEEP;
    say_words("%s waits for ever, whatever the order is from here on", context_name(task));
    count(false);
}

/* One that waits for ever, unless it goes on behind a place at which ticks were cut off. */
static void look_for_undecided(void) {
    int task;
    if (places_stuck(&task, false) >= 0)
        leave_untried(LEFT_TICKS, "%s may wait for ever", context_name(task));
}

int play_places(void) {
    bool complete;
    long words;
    learn_words();
    do {
        words = learned->count;
        places_anew();
        begin_anew();
        complete = go_through(words);
    } while (words != learned->count && (!found_so_far() || options.goes_on));
    if (complete && !found_so_far())
        look_for_stuck();
    if (complete && !found_so_far())
        look_for_undecided();
    return tell("step", complete);
}

/* --- a file --- */

int play_file(void) {
    replay_open();
    if (!replay_has_points())
        learn_words();
    kept->valid = 0;
    recording = true;
    process_run(by_replay);
    replay_compare(is_finding());
    count(true);
    if (is_finding())
        tell_replayed("order");
    else if (options.logs)
        log_tell();
    write_files();
    bool cut = outcome->ending == CUT_SHORT;
    if (cut)
        fprintf(stderr, "fmphost: %s ends here, and more may happen\n", options.replay);
    return tell_summary("order", !cut);
}
