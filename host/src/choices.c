#include "choices.h"
#include "memory.h"
#include "outcome.h"
#include "report.h"
#include "until.h"
#include <errno.h>
#include <stdio.h>
#include <stdlib.h>
#include <string.h>
#include <unistd.h>

/* --- a seed --- */

static uint64_t random_state;
static long still_until[MOST_PROCESSORS]; /* the turn up to which a processor stands still */

void seed_begin(uint64_t seed) {
    random_state = seed;
    memset(still_until, 0, sizeof still_until);
}

static uint64_t draw(void) { /* SplitMix64, as fmpsim smp --seed takes */
    uint64_t z = random_state += 0x9e3779b97f4a7c15u;
    z = (z ^ z >> 30) * 0xbf58476d1ce4e5b9u;
    z = (z ^ z >> 27) * 0x94d049bb133111ebu;
    return z ^ z >> 31;
}

/* Long times in which a processor does nothing, as by a slow bus or an interrupt of a device, are rare where each turn is drawn by itself. */
static uint32_t without_stalled(uint32_t enabled, long turn) {
    uint32_t left = enabled;
    if (draw() % 1000 < (uint64_t)options.stalls) {
        uint64_t which = draw();
        still_until[which % (uint64_t)fmphost_processors] = turn + 1 + (long)(which >> 32 & 63);
    }
    for (int p = 0; p < fmphost_processors; p++)
        if (still_until[p] > turn)
            left &= ~(((1u << ACTS) - 1) << (p * ACTS));
    return left != 0 ? left : enabled;
}

static unsigned weight(uint32_t enabled, int action) {
    return !(enabled & 1u << action) ? 0 : action % ACTS == IPI || options.late == 0 ? 1 : (unsigned)options.late;
}

int by_seed(uint32_t enabled, long turn) {
    if (enabled == 0)
        return ENDS_HERE;
    if (options.stalls)
        enabled = without_stalled(enabled, turn);
    uint64_t sum = 0;
    for (int a = 0; a < fmphost_processors * ACTS; a++)
        sum += weight(enabled, a);
    uint64_t left = draw() % sum;
    int action = 0;
    for (; left >= weight(enabled, action); action++)
        left -= weight(enabled, action);
    return action;
}

/* --- a path --- */

struct path path;

void path_of_outcome(void) {
    path.length = outcome->turns;
    for (long i = 0; i < path.length; i++)
        path.action[i] = outcome->turn[i].action;
}

int by_path(uint32_t enabled, long turn) {
    if (turn < path.length && !(enabled & 1u << path.action[turn]))
        give_up("the program does not do the same again: does it use the time, a random number, or what it left in a file?");
    return turn < path.length ? path.action[turn] : ENDS_HERE;
}

/* --- a file --- */

static FILE *replayed;
static long line_number;
static bool replays_trace, has_points, stopped;
static char line[1 << 16];

/* The next line that is no comment. One without its line feed was cut. */
static bool next_line(void) {
    while (fgets(line, sizeof line, replayed)) {
        line_number++;
        size_t length = strlen(line);
        if (length == 0 || line[length - 1] != '\n')
            give_up("%s:%ld: this line is cut short", options.replay, line_number);
        line[length - 1] = '\0';
        if (line[0] != '#')
            return true;
    }
    if (ferror(replayed))
        give_up("%s: %s", options.replay, strerror(errno));
    return false;
}

static int act_of(const char *word) {
    return !strcmp(word, "ipi") ? IPI : !strcmp(word, "tick") ? TICK : GO;
}

/* `P1 go ..` of an order is a turn; `3 P1 T1 act_tsk(T2) ..` of a trace is all turns of the processor up to its next record. */
static int action_of_line(void) {
    char word[64];
    int processor, act;
    if (!replays_trace && sscanf(line, "P%d %63s", &processor, word) == 2 && (act_of(word) != GO || !strcmp(word, "go")))
        act = act_of(word);
    else if (replays_trace && sscanf(line, "%*d P%d %*s %63s", &processor, word) == 2)
        act = act_of(word);
    else
        give_up("%s:%ld: this is no line of an order or of a trace: %s", options.replay, line_number, line);
    if (processor < 1 || processor > fmphost_processors)
        give_up("%s:%ld: there is no such processor: %s", options.replay, line_number, line);
    return (processor - 1) * ACTS + act;
}

/* `# fmphost order: ticks 3, joined 1, points 4068 4070`: what the run that wrote it was asked and knew. */
static void read_head(void) {
    long ticks;
    int joined, used;
    has_points = false;
    if (sscanf(line, "# fmphost order: ticks %ld, joined %d, points%n", &ticks, &joined, &used) != 2)
        return;
    has_points = true;
    joins_returns = joined != 0;
    if (!options.ticks_named)
        options.ticks = ticks;
    for (char *at = line + used, *end; *at == ' '; at = end)
        learn_word((uintptr_t)strtoull(at, &end, 16));
}

/* A trace tells neither points nor ticks, and one of a run that ended before its first event has no line at all. */
void replay_open(void) {
    replayed = fopen(options.replay, "r");
    if (replayed == NULL)
        give_up("%s: %s", options.replay, strerror(errno));
    if (fgets(line, sizeof line, replayed) != NULL)
        read_head();
    rewind(replayed);
    replays_trace = !next_line() ? !has_points : line[0] >= '0' && line[0] <= '9';
    if (replays_trace) {
        every_tick = true;
        options.ticks = options.ticks_named ? options.ticks : 1000000;
    }
    rewind(replayed);
    line_number = 0;
}

bool replay_has_points(void) {
    return has_points;
}

/* Behind a trace's last line those that stand before an access still make it: it is no event, and may be the one that was looked for. */
static int access_left(uint32_t enabled) {
    for (int p = 1; p <= fmphost_processors; p++) {
        const struct context *who = run_current(p);
        if (who != NULL && who->next != CALL && (enabled & 1u << ((p - 1) * ACTS + GO)))
            return (p - 1) * ACTS + GO;
    }
    return -1;
}

int by_replay(uint32_t enabled, long turn) {
    static int again = -1;
    if (enabled == 0 && again < 0)
        return ENDS_HERE;
    if (again >= 0 && outcome->turn[turn - 1].record == 0 && (enabled & 1u << again))
        return again;
    again = -1;
    if (!next_line()) {
        int left = replays_trace ? access_left(enabled) : -1;
        bool more = false;
        for (int a = 0; a < fmphost_processors * ACTS; a++)
            more |= a % ACTS != TICK && (enabled & 1u << a);
        return left >= 0 ? left : more ? IS_CUT_SHORT : ENDS_HERE;
    }
    int action = action_of_line();
    if (!(enabled & 1u << action))
        give_up("%s:%ld: this cannot happen here: %s", options.replay, line_number, line);
    if (line_number == options.until) {
        stopped = true;
        stop_before(options.replay, line_number, action);
    }
    if (replays_trace && action % ACTS == GO)
        again = action;
    return action;
}

/* Who it was, the name of the call or what was done, and the answer's word: not what is an address, which another compiler places elsewhere. */
static void outline(const char *text, char *into, size_t room) {
    size_t length = 0;
    int words = 0, depth = 0;
    for (; *text != '\0' && words < 3 && length + 2 < room; text++) {
        depth += (*text == '(') - (*text == ')');
        words += *text == ' ' && depth == 0;
        if (depth == 0 && *text != ')')
            into[length++] = *text;
    }
    into[length] = '\0';
    into[strcspn(into, ":")] = '\0';
    for (length = strlen(into); length > 0 && into[length - 1] == ' '; length--)
        into[length - 1] = '\0';
    if (strstr(into, " reads") || strstr(into, " writes"))
        into[strcspn(into, " ") + 7] = '\0';
}

static const char *behind(const char *text, int words) {
    for (; words > 0 && *text != '\0'; words--) {
        text += strcspn(text, " ");
        text += strspn(text, " ");
    }
    return text;
}

static void compare_line(const char *wanted, const char *was) {
    char one[256], other[256];
    outline(wanted, one, sizeof one);
    outline(was, other, sizeof other);
    if (one[0] != '\0' && strcmp(one, other) != 0) /* a line that only says whose turn it is may be anybody's */
        give_up("%s:%ld: here stands '%s', and the program does '%s': is the file of another program?", options.replay, line_number, one, other);
}

void replay_compare(bool found) {
    char was[2048];
    long turn = 0, record = 0;
    if (options.until > 0 && !stopped)
        give_up("%s has no turn in line %ld", options.replay, options.until);
    rewind(replayed);
    line_number = 0;
    while (next_line()) {
        bool there = replays_trace ? record_text(++record, was, sizeof was) : turn < outcome->turns;
        if (there && !replays_trace)
            turn_text(turn++, was, sizeof was);
        if (there)
            compare_line(behind(line, 2), replays_trace ? behind(was, 1) : was);
        else if (!found)
            give_up("%s:%ld: the program has ended before this: %s", options.replay, line_number, line);
    }
}
