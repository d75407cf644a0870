#include "run.h"
#include "clocks.h"
#include "coverage.h"
#include "memory.h"
#include "outcome.h"
#include "places.h"
#include "pools.h"
#include "requests.h"
#include "timers.h"
#include <stdarg.h>
#include <stdio.h>
#include <string.h>
#include <unistd.h>

bool instrumented, every_tick, joins_returns;
static struct footprint unused;
struct footprint *footprint = &unused;
struct outcome *outcome;
static long ticks[MOST_PROCESSORS + 1], tick_turns[MOST_PROCESSORS + 1];
static bool began[MOST_OBJECTS];                /* a handler that ran in this run */
static bool spins[MOST_CONTEXTS];               /* its lock was held, and is still */
static long waits_since[MOST_CONTEXTS];

void give_up(const char *form, ...) {
    char line[1024];
    va_list values;
    va_start(values, form);
    vsnprintf(line, sizeof line, form, values);
    va_end(values);
    fprintf(stderr, "fmphost: %s\n", line);
    if (outcome != NULL)
        outcome->ending = BROKEN;
    _exit(3);
}

/* --- the end of a run --- */

static uint64_t end_hash(enum ending ending) {
    uint64_t sum = memory_hash();
    if (ending >= CLAIM) /* cut off anywhere: what the others still had to do says nothing */
        return sum;
    for (int p = 1; p <= fmphost_processors; p++)
        sum = (sum ^ (uint64_t)(state.processor[p].run * 3 + state.processor[p].latch)) * 1099511628211u ^ state.processor[p].ready;
    for (int i = 0; i < fmphost_object_count; i++)
        sum = (sum ^ state.told[i]) * 1099511628211u;
    return sum;
}

void say_words(const char *form, ...) {
    va_list values;
    va_start(values, form);
    vsnprintf(outcome->words, sizeof outcome->words, form, values);
    va_end(values);
}

void seal_outcome(enum ending ending) {
    outcome->ending = ending;
    outcome->events = answers - 1;
    outcome->trace_length = trace_length;
    outcome->trace_hash = hash_text(trace_text, trace_text + trace_length);
    outcome->instrumented = instrumented;
}

void end_run(enum ending ending, const char *form, ...) {
    va_list values;
    va_start(values, form);
    vsnprintf(outcome->words, sizeof outcome->words, form, values);
    va_end(values);
    seal_outcome(ending);
    outcome->end = end_hash(ending) ^ (uint64_t)ending << 56;
    for (const char *at = outcome->words; *at != '\0'; at++)
        outcome->end = (outcome->end ^ (unsigned char)*at) * 1099511628211u;
    if (recording && running != NULL && ending != RACE)
        callers_of(running, (uintptr_t)__builtin_frame_address(0), running->place, &outcome->callers);
    running = NULL;
    proved_stop();
    leave_run();
}

void end_with_place(enum ending ending, const char *form, ...) {
    char words[1024];
    va_list values;
    va_start(values, form);
    vsnprintf(words, sizeof words, form, values);
    va_end(values);
    outcome->crash = running->place;
    end_run(ending, "%s", words);
}

/* --- who runs, and what may happen --- */

struct context *run_current(int processor) {
    const struct processor *p = &state.processor[processor];
    return p->due >= 0 ? context_of_handler(p->due, processor) : p->run >= 0 ? context_of_task(p->run) : NULL;
}

long run_ticks(int processor) {
    return tick_turns[processor];
}

bool run_spins(int context) {
    return spins[context];
}

int run_processor(const struct context *who) {
    for (int p = 1; p <= fmphost_processors; p++)
        if (run_current(p) == who)
            return p;
    return 0;
}

/* Each that runs and stands before nothing goes on until it does: what it does so far nobody can see. */
static void settle(void) {
    for (int p = 1; p <= fmphost_processors; p++) {
        struct context *who = run_current(p);
        if (who == NULL || who->next != NOTHING)
            continue;
        if (!who->lives) {
            who->lives = began[who->object] = true;
            coverage_object(who->object);
            clocks_begin(who, p);
        } else if (!who->answered)
            give_up("%s runs and was not answered", context_name((int)(who - contexts)));
        context_resume(who);
    }
}

/* A tick that lowers nothing is no turn. */
static bool tick_fits(int processor) {
    const struct processor *now = &state.processor[processor];
    bool has_timer = fmphost_master == 0 || fmphost_master == processor;
    return !now->locked && now->due < 0 && has_timer && (every_tick || counts_on(processor));
}

bool run_cut_ticks(void) {
    for (int p = 1; p <= fmphost_processors; p++)
        if (tick_turns[p] >= options.ticks && tick_fits(p) && counts_on(p))
            return true;
    return false;
}

static uint32_t may_happen(void) {
    uint32_t may = 0;
    for (int p = 1; p <= fmphost_processors; p++) {
        const struct processor *now = &state.processor[p];
        const struct context *who = run_current(p);
        if (who != NULL && !(who->next == CALL && spins[who - contexts] && state.held[who->named] != 0))
            may |= 1u << ((p - 1) * ACTS + GO);
        if (now->latch && !now->locked && !now->disabled && now->due < 0)
            may |= 1u << ((p - 1) * ACTS + IPI);
        if (tick_turns[p] < options.ticks && tick_fits(p))
            may |= 1u << ((p - 1) * ACTS + TICK);
    }
    return may;
}

/* The clock that is farthest: by it --patience counts, also on a processor that has no ticks. */
static long most_ticks(void) {
    long most = 0;
    for (int p = 1; p <= fmphost_processors; p++)
        most = ticks[p] > most ? ticks[p] : most;
    return most;
}

/* --- one turn --- */

static void answered(struct context *who, int code, int64_t value) {
    who->code = code;
    who->value = value;
    who->answered = true;
    who->waits = false;
    who->next = NOTHING;
}

/* Who gives to what, and who has to give back what it took: seen in the first runs and in this one. */
static bool gave_here[MOST_OBJECTS][MOST_OBJECTS];

static void note_giver(const struct context *caller, const struct answer *answer) {
    if (caller == NULL || caller->named < 0)
        return;
    int kind = fmphost_objects[caller->named].kind;
    bool returns = kind == FMPHOST_SEM || kind == FMPHOST_MPF || kind == FMPHOST_DTQ;
    if (is_accepted(caller, answer) && ((caller->call->does & GIVES) || ((caller->call->does & TAKES) && returns))) {
        gave_here[caller->object][caller->named] = true;
        if (learned->learns)
            learned->gave[caller->object][caller->named] = true;
    }
}

static void note_counting(void) {
    for (int i = 0; i < fmphost_object_count; i++)
        if (counts(i))
            coverage_counts(i);
}

static void after_event(struct context *caller, int processor, const struct answer *answer, struct turn *turn) {
    turn->record = answers - 1;
    for (int i = 0; i < answer->releases; i++)
        answered(context_of_task(answer->release[i].task), answer->release[i].code, answer->release[i].value);
    timers_event(caller, is_accepted(caller, answer) && caller->named >= 0);
    clocks_event(caller, processor, answer);
    places_event(caller, answer);
    pools_event(caller, answer);
    note_giver(caller, answer);
    footprint_changes(footprint);
    note_counting();
}

static void make_call(struct context *who, int processor, struct turn *turn) {
    const struct answer *answer = proved_event(processor, who->request);
    int number = (int)(who - contexts);
    footprint_call(footprint, processor, who);
    spins[number] = answer->said == SPIN;
    bool ends = answer->said == GONE || (answer->said == CODE && (who->call->does & RETURNS));
    int ended = answer->said == CODE && answer->code == 0 && (who->call->does & TERMINATES) ? who->named : -1;
    if (answer->said == WAIT) {
        who->waits = true;
        who->next = NOTHING;
        waits_since[number] = most_ticks();
    } else if (answer->said == CODE && !ends)
        answered(who, answer->code, answer->value);
    else if (answer->said == TAKEN || answer->said == NONE) /* fmphost_tick() */
        answered(who, 0, 0);
    else if (answer->said == IDLE || answer->said == HELD)
        give_up("fmpsim says that nobody runs who made a call: %s", who->request);
    after_event(who, processor, answer, turn);
    if (ends)
        context_end(who);
    if (ended >= 0) {
        context_end(context_of_task(ended));
        context_of_task(ended)->ended++;
    }
}

static const struct answer *taken(int processor, const char *event, struct turn *turn) {
    const struct answer *answer = proved_event(processor, event);
    if (answer->said != TAKEN)
        give_up("fmpsim does not take what was thought to be possible: P%d %s", processor, event);
    after_event(NULL, processor, answer, turn);
    return answer;
}

static void make_interrupt(int processor, struct turn *turn) {
    footprint_interrupt(footprint, processor, false);
    taken(processor, "ipi", turn);
}

/* Handlers that come to their end before anything that others see. */
static void join_returns(int processor, struct turn *turn) {
    long record = turn->record;
    while (state.processor[processor].due >= 0) {
        settle();
        struct context *who = run_current(processor);
        if (who->next != CALL || !(who->call->does & RETURNS))
            break;
        make_call(who, processor, turn);
    }
    turn->record = record;
}

static bool is_as_before(const struct processor *then) {
    for (int p = 1; p <= fmphost_processors; p++) {
        const struct processor *a = &then[p], *b = &state.processor[p];
        if (a->run != b->run || a->due != b->due || a->dues != b->dues || a->ready != b->ready || a->locked != b->locked || a->disabled != b->disabled ||
            a->latch != b->latch)
            return false;
    }
    return true;
}

/* On to the tick at which something is due: those before it change nothing that anybody sees. */
static void make_ticks(int processor, struct turn *turn) {
    const struct answer *answer;
    struct processor then[MOST_PROCESSORS + 1];
    memcpy(then, state.processor, sizeof then);
    tick_turns[processor]++;
    footprint_interrupt(footprint, processor, true);
    do {
        ticks[processor]++;
        turn->ticks++;
        answer = taken(processor, "tick", turn);
    } while (!every_tick && answer->releases == 0 && state.processor[processor].due < 0 && counts_on(processor) && !proved_full());
    if (!joins_returns || answer->releases > 0)
        return;
    join_returns(processor, turn);
    if (instrumented && options.patience < 0 && is_as_before(then))
        footprint_quiet_tick(footprint, processor);
}

/* Whoever was to write is behind its next access by then, but that is none of the same bytes, or it would be a turn. */
static void keep_value(struct turn *turn) {
    turn->valued = turn->size > 0 && bytes_at(turn->at, turn->value, turn->size < MOST_VALUE ? turn->size : MOST_VALUE);
}

static void make_turn(int action) {
    int processor = action / ACTS + 1;
    struct turn *turn = &outcome->turn[outcome->turns];
    struct context *who = action % ACTS == GO ? run_current(processor) : NULL;
    *turn = (struct turn){.action = (unsigned char)action, .context = (short)(who ? who - contexts : -1), .answers_before = answers};
    outcome->turns++;
    footprint_begin(footprint, processor);
    if (action % ACTS == TICK)
        make_ticks(processor, turn);
    else if (action % ACTS == IPI)
        make_interrupt(processor, turn);
    if (who == NULL)
        return;
    footprint_access(footprint, who);
    turn->place = who->place;
    if (who->next == CALL) {
        make_call(who, processor, turn);
        return;
    }
    turn->at = who->at, turn->size = who->next == ACCESS ? who->size : 0, turn->writes = who->writes;
    if (recording && !turn->writes)
        keep_value(turn);
    context_resume(who);
    if (recording && turn->writes)
        keep_value(turn);
}

/* --- those that wait for ever --- */

long run_waited(int context) {
    long waited = most_ticks() - waits_since[context];
    return waited > options.patience ? options.patience + 1 : waited;
}

/* At an end nothing goes on. Before it only patience says that one waits for too long. */
static bool is_stuck(int i, bool ended) {
    const struct context *who = &contexts[i];
    bool waits = who->processor == 0 && who->waits && !state.counting[who->object] && !options.may_wait[who->object];
    bool turns = ended && who->lives && spins[i] && who->next == CALL;
    return (waits || turns) && (ended || (options.patience >= 0 && most_ticks() - waits_since[i] > options.patience));
}

static bool may_give(int giver, int object) {
    return gave_here[giver][object] || learned->gave[giver][object];
}

/* Nobody who lives may end its wait: so it may be a server without a request. */
static bool may_only_serve(int i) {
    int task = contexts[i].object, object = state.waits[task] >= 0 ? state.waits[task] : task;
    if (!contexts[i].waits)
        return false;
    for (int j = 0; j < context_count; j++) {
        bool lives = contexts[j].lives || (contexts[j].processor != 0 && counts(contexts[j].object));
        if (j != i && lives && (may_give(contexts[j].object, object) || may_give(contexts[j].object, task)))
            return false;
    }
    return true;
}

static size_t add_servers(char *words, size_t room, bool ended) {
    size_t length = 0;
    for (int i = 0; i < context_count && length + 300 < room; i++)
        if (is_stuck(i, ended) && may_only_serve(i))
            length += (size_t)snprintf(words + length, room - length, "%s%s", length ? "," : "; right if it only serves: --may-wait ", context_name(i));
    return length;
}

static void end_at_sleepers(bool ended) {
    char words[2048];
    size_t length = 0;
    for (int i = 0; i < context_count && length < sizeof words - 600; i++)
        if (is_stuck(i, ended))
            length += (size_t)snprintf(words + length, sizeof words - length, "%s%s %s for ever in %s", length ? "; " : "", context_name(i),
                                       contexts[i].waits ? "waits" : "spins", request_text(&contexts[i]));
    if (length > 0) {
        add_servers(words + length, sizeof words - length, ended);
        end_run(ASLEEP, "%s", words);
    }
}

static size_t add_left(enum left kind, const char *form, ...) {
    char *words = outcome->left[kind];
    size_t length = strlen(words), room = sizeof outcome->left[kind] - length;
    va_list values;
    va_start(values, form);
    if (room > 300)
        vsnprintf(words + length, room, form, values);
    va_end(values);
    return room;
}

static const char *comma(enum left kind) {
    return outcome->left[kind][0] != '\0' ? ", " : "";
}

void run_leaves_ticks(bool ended) {
    for (int i = 0; i < context_count; i++) {
        const struct context *who = &contexts[i];
        bool waits = who->processor == 0 && who->waits && !options.may_wait[who->object];
        if ((waits && (ended || state.counting[who->object])) || (ended && is_stuck(i, true)))
            add_left(LEFT_TICKS, "%s%s %s in %s", comma(LEFT_TICKS), context_name(i), waits ? "waits" : "spins", request_text(who));
    }
    for (int i = 0; i < fmphost_object_count && ended; i++)
        if (fmphost_objects[i].kind != FMPHOST_TASK && counts(i) && !began[i])
            add_left(LEFT_TICKS, "%s%s has not run", comma(LEFT_TICKS), fmphost_objects[i].name);
}

static bool may_tick(void) {
    for (int p = 1; p <= fmphost_processors; p++)
        if (tick_fits(p) && counts_on(p))
            return true;
    return false;
}

/* A block that is still handed out where nobody who lives has to do with its pool. */
static void end_at_kept_block(void) {
    int block, who;
    for (int pool = 0; pool < fmphost_object_count; pool++) {
        if (fmphost_objects[pool].kind != FMPHOST_MPF || !pools_kept(pool, &block, &who))
            continue;
        bool used = false;
        for (int i = 0; i < context_count; i++)
            used |= contexts[i].lives && may_give(contexts[i].object, pool);
        if (!used)
            end_run(BLOCK, "block %d of %s, which %s got, is never given back", block, fmphost_objects[pool].name, context_name(who));
    }
}

/* Where nothing may happen any more, or nothing but ticks. Where a tick could still come this is no end: whoever waits may go on then. */
static _Noreturn void end_quiet(void) {
    if (may_tick())
        run_leaves_ticks(true);
    else {
        end_at_sleepers(true);
        end_at_kept_block();
    }
    end_run(QUIET, " ");
}

/* A run that is cut off, and who could have gone on there. */
static _Noreturn void end_cut(enum left kind) {
    settle();
    for (int p = 1; p <= fmphost_processors; p++)
        if (run_current(p) != NULL)
            add_left(kind, "%s%s goes on", comma(kind), context_name((int)(run_current(p) - contexts)));
    if (outcome->left[kind][0] == '\0')
        add_left(kind, "interrupts may come");
    end_run(LIMIT, " ");
}

static bool only_ticks(uint32_t may) {
    for (int p = 0; p < fmphost_processors; p++)
        may &= ~(1u << (p * ACTS + TICK));
    return may == 0;
}

/* For each turn anew: code that comes to nothing in that time hangs. Who looks on in a debugger takes as long as it takes. */
static void wait_at_most(void) {
    if (options.until == 0)
        alarm((unsigned)options.seconds);
}

void run(chooser *choose) {
    wait_at_most();
    proved_start();
    timers_begin();
    note_counting();
    outcome->turns = 0;
    while (outcome->turns < options.turns && !proved_full()) {
        wait_at_most();
        settle();
        uint32_t may = may_happen();
        int action = choose(may, outcome->turns);
        if (may == 0 || (action == ENDS_HERE && only_ticks(may)))
            end_quiet();
        if (action < 0)
            end_run(action == ENDS_HERE ? QUIET : action == LEAVES_OFF ? LEFT_OFF : CUT_SHORT, " ");
        make_turn(action);
        if (options.patience >= 0 && action % ACTS == TICK)
            end_at_sleepers(false);
    }
    end_cut(outcome->turns < options.turns ? LEFT_EVENTS : LEFT_TURNS);
}
