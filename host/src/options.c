/* The command line. */
#include "options.h"
#include "names.h"
#include "outcome.h"
#include "run.h"
#include <errno.h>
#include <limits.h>
#include <stdio.h>
#include <stdlib.h>
#include <string.h>

static const char usage[] =
    "Runs the tasks and handlers that it was linked with on the kernel that fmpsim proves.\n"
    "\n"
    "Who goes next is chosen by\n"
    "  --seeds A..B        a seed: a run for each, until one finds something (1..100)\n"
    "  --every-order       every order, but for those that differ only where it cannot matter\n"
    "  --all-orders        every order, and none is left out\n"
    "  --preemptions N     every order with at most N places where a processor is left that could go on\n"
    "  --places            every order, and no place is gone on from twice: for programs that never end\n"
    "  --replay FILE       a file: an order that --order wrote, or a trace\n"
    "  --until LINE        with --replay: stops before the turn of this line of the file, where a debugger may look on (HOST.md)\n"
    "How far:\n"
    "  --ticks N|any       so many times on each processor ticks go on to what is due next (3); any goes with --places\n"
    "  --turns N           so many turns in a run (2000)\n"
    "  --runs N            so many runs\n"
    "  --seconds N         code that comes to no service call in that time hangs (10)\n"
    "  --jobs N            so many seeds at a time\n"
    "  --stalls N          with seeds: in N of 1000 turns a processor begins to stand still for a while\n"
    "  --late N            with seeds: an interrupt is N times less likely than another turn\n"
    "What is a finding:\n"
    "  --races none|between|all   races: none, between processors, or on one too (all)\n"
    "  --volatile          accesses of volatile variables race too\n"
    "  --may-wait T[,T]..  these tasks may wait for ever\n"
    "  --shared V[,V]..    these variables are shared on purpose: no race on them is one\n"
    "  --refused none|own|all|E_..[,E_..]   a call that is refused with such a code, at which nothing looks: E_CTX, E_ID, E_PAR,\n"
    "                      E_ILUSE, and whatever reaches t_perror (own)\n"
    "  --stacks            a task that uses more stack than its configuration gives is one; at the end, how much each used at most\n"
    "  --stack-factor N    with --stacks: it may use N times as much, as frames are larger on this machine than on a board (1)\n"
    "  --patience N        a wait without a timeout that lasts more than N ticks is one\n"
    "  --no-points         others go on at service calls alone, and not at accesses of what is shared\n"
    "  --all               goes on after a finding\n"
    "  --progress          how far it is, on standard error, once a second: as at a terminal\n"
    "What is written:\n"
    "  --trace FILE        the trace of the first finding, or of the last run\n"
    "  --order FILE        its order, turn by turn\n"
    "  --view FILE         its picture: the page that fmpsim view makes of the trace\n"
    "  --junit FILE        JUnit's XML, in which this run is a case\n"
    "  --tap               the same in the Test Anything Protocol, on standard output\n"
    "  --log               what the program logs in that run, on standard error\n"
    "  --ends              how many ends there were that differ, after all findings\n"
    "  --check             fmpsim check judges the trace of each run\n"
    "With what:\n"
    "  --serial TEXT       what the serial port reads\n"
    "  --config CFG        the configuration, where it is no longer where kernel_cfg.c was made of it\n"
    "  --fmpsim PROGRAM    the program (FMPSIM, else fmpsim)\n"
    "\n"
    "Status: 0 nothing found as far as the last line says, 5 found, 6 nothing found and not all was looked at, 2 wrong words, 3 something failed.\n";

struct options options;
static bool mode_named;

static _Noreturn void misused(const char *word, const char *why) {
    fprintf(stderr, "fmphost: %s: %s; --help has the words\n", word, why);
    exit(2);
}

static long number(const char *word, const char *text, long least, long most) {
    char *end, why[96];
    errno = 0;
    long value = strtol(text, &end, 10);
    snprintf(why, sizeof why, "expected a number from %ld to %ld", least, most);
    if (*text < '0' || *text > '9' || *end != '\0' || errno || value < least || value > most)
        misused(word, why);
    return value;
}

static uint64_t seed(const char *text, char **end) {
    errno = 0;
    uint64_t value = strtoull(text, end, 10);
    if (*text < '0' || *text > '9' || errno)
        misused("--seeds", "expected A..B, or one number");
    return value;
}

static void choose_mode(const char *word, enum mode mode) {
    if (mode_named && options.mode != mode)
        misused(word, "says another way to choose than a word before it");
    mode_named = true;
    options.mode = mode;
}

static void read_seeds(const char *text) {
    char *end;
    options.first_seed = options.last_seed = seed(text, &end);
    if (strncmp(end, "..", 2) == 0)
        options.last_seed = seed(end + 2, &end);
    if (*end != '\0')
        misused("--seeds", "expected A..B, or one number");
    if (options.last_seed < options.first_seed)
        misused("--seeds", "the first seed is above the last");
    choose_mode("--seeds", BY_SEEDS);
}

static void read_sleepers(const char *text) {
    for (; *text != '\0'; text += strcspn(text, ","), text += *text == ',') {
        int object = object_named(text, strcspn(text, ","));
        if (object < 0 || fmphost_objects[object].kind != FMPHOST_TASK)
            misused("--may-wait", "no task has that name");
        options.may_wait[object] = true;
    }
}

static void read_shared(const char *text) {
    for (; *text != '\0'; text += strcspn(text, ","), text += *text == ',') {
        char name[256];
        snprintf(name, sizeof name, "%.*s", (int)strcspn(text, ","), text);
        if (options.shared_count == MOST_SHARED)
            misused("--shared", "too many variables");
        if (!variable_range(name, &options.shared[options.shared_count].at, &options.shared[options.shared_count].size))
            misused("--shared", "no variable has that name, or several have");
        options.shared_count++;
    }
}

bool is_shared_variable(uintptr_t at) {
    for (int i = 0; i < options.shared_count; i++)
        if (at - options.shared[i].at < options.shared[i].size)
            return true;
    return false;
}

static void read_refused(const char *text) {
    static const char *const names[] = {"none", "own", "all"};
    for (int i = 0; i < 3; i++)
        if (!strcmp(text, names[i])) {
            options.refused = (enum refused)i;
            return;
        }
    options.refused = REFUSED_NAMED;
    for (; *text != '\0'; text += strcspn(text, ","), text += *text == ',') {
        int code = code_named(text, strcspn(text, ","));
        if (code >= 0 || options.named_count == MOST_NAMED)
            misused("--refused", "expected none, own, all or codes: E_ID,E_OBJ");
        options.named[options.named_count++] = code;
    }
}

bool is_refused_named(int code) {
    for (int i = 0; i < options.named_count; i++)
        if (options.named[i] == code)
            return true;
    return false;
}

static void read_ticks(const char *text) {
    options.ticks_named = true;
    options.ticks_any = !strcmp(text, "any");
    options.ticks = options.ticks_any ? LONG_MAX : number("--ticks", text, 0, 1000000);
}

static void read_races(const char *text) {
    static const char *const names[] = {"none", "between", "all"};
    for (int i = 0; i < 3; i++)
        if (!strcmp(text, names[i])) {
            options.races = (enum races)i;
            return;
        }
    misused("--races", "expected none, between or all");
}

static void read_preemptions(const char *text) {
    options.preemptions = number("--preemptions", text, 0, 1000000);
    choose_mode("--preemptions", BY_PREEMPTIONS);
}

static void read_replay(const char *text) {
    options.replay = text;
    choose_mode("--replay", BY_REPLAY);
}

/* The words that have a value, by what becomes of it. */
static const struct { const char *word; const char **text; } texts[] = {
    {"--serial", &options.serial}, {"--trace", &options.trace}, {"--order", &options.order}, {"--view", &options.view},
    {"--junit", &options.junit}, {"--config", &options.configuration}, {"--fmpsim", &options.fmpsim}};
static const struct { const char *word; long *value, least, most; } numbers[] = {
    {"--turns", &options.turns, 1, MOST_TURNS - 1}, {"--runs", &options.most_runs, 1, LONG_MAX}, {"--patience", &options.patience, 0, 1000000},
    {"--seconds", &options.seconds, 1, 1000000}, {"--jobs", &options.jobs, 1, 256}, {"--stalls", &options.stalls, 1, 1000}, {"--late", &options.late, 1, 1000000},
    {"--until", &options.until, 1, LONG_MAX}, {"--stack-factor", &options.stack_factor, 1, 100}};
static const struct { const char *word; void (*read)(const char *text); } readers[] = {
    {"--seeds", read_seeds}, {"--ticks", read_ticks}, {"--races", read_races}, {"--may-wait", read_sleepers}, {"--shared", read_shared}, {"--refused", read_refused},
    {"--preemptions", read_preemptions}, {"--replay", read_replay}};
static const struct { const char *word; bool *flag, value; } flags[] = {
    {"--volatile", &options.volatiles, true}, {"--no-points", &options.points, false}, {"--log", &options.logs, true}, {"--all", &options.goes_on, true},
    {"--ends", &options.tells_ends, true}, {"--progress", &options.progress, true}, {"--stacks", &options.stacks, true}, {"--tap", &options.tap, true}, {"--check", &options.judged, true}};
static const struct { const char *word; enum mode mode; } modes[] = {
    {"--every-order", EVERY_ORDER}, {"--all-orders", ALL_ORDERS}, {"--places", BY_PLACES}};
#define COUNT(list) (sizeof list / sizeof *list)

static bool read_flag(const char *word) {
    for (size_t i = 0; i < COUNT(flags); i++)
        if (!strcmp(word, flags[i].word)) {
            *flags[i].flag = flags[i].value;
            return true;
        }
    for (size_t i = 0; i < COUNT(modes); i++)
        if (!strcmp(word, modes[i].word)) {
            choose_mode(word, modes[i].mode);
            return true;
        }
    return false;
}

static bool read_value(const char *word, const char *value) {
    bool known = false;
    for (size_t i = 0; i < COUNT(texts); i++)
        if (!strcmp(word, texts[i].word) && (known = true) && value)
            *texts[i].text = value;
    for (size_t i = 0; i < COUNT(numbers); i++)
        if (!strcmp(word, numbers[i].word) && (known = true) && value)
            *numbers[i].value = number(word, value, numbers[i].least, numbers[i].most);
    for (size_t i = 0; i < COUNT(readers); i++)
        if (!strcmp(word, readers[i].word) && (known = true) && value)
            readers[i].read(value);
    if (known && value == NULL)
        misused(word, "expected a value after it");
    return known;
}

/* Words that say nothing together are refused, and none is passed over. */
static void look_together(void) {
    options.goes_on |= options.tells_ends; /* or not all ends would be counted */
    joins_returns = options.mode == EVERY_ORDER;
    if (options.ticks_any && options.mode != BY_PLACES)
        misused("--ticks any", "goes with --places alone");
    if (options.stack_factor > 1 && !options.stacks)
        misused("--stack-factor", "goes with --stacks alone");
    if (options.until > 0 && options.mode != BY_REPLAY)
        misused("--until", "goes with --replay alone");
    if ((options.jobs > 1 || options.stalls || options.late) && options.mode != BY_SEEDS)
        misused(options.jobs > 1 ? "--jobs" : options.stalls ? "--stalls" : "--late", "goes with --seeds alone");
#if !defined __x86_64__
    if (options.mode == BY_PLACES)
        misused("--places", "is made for x86-64 alone");
#endif
}

void read_options(int count, char **words) {
    options = (struct options){.fmpsim = getenv("FMPSIM") ? getenv("FMPSIM") : "fmpsim", .configuration = fmphost_configuration, .serial = "",
                               .first_seed = 1, .last_seed = 100, .ticks = 3, .turns = 2000, .preemptions = -1, .patience = -1, .most_runs = LONG_MAX,
                               .races = RACES_ALL, .refused = REFUSED_OWN, .seconds = 10, .jobs = 1, .stack_factor = 1, .points = true};
    for (int i = 1; i < count; i++) {
        if (!strcmp(words[i], "--help")) {
            fputs(usage, stdout);
            exit(fflush(stdout) == 0 ? 0 : 3);
        }
        if (read_flag(words[i]))
            continue;
        if (!read_value(words[i], i + 1 < count ? words[i + 1] : NULL))
            misused(words[i], "no such word");
        i++;
    }
    look_together();
}
