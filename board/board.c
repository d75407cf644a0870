/*
 * Plays one case on a kernel. Each task and handler has the same body: it says on which processor it runs, and waits until all run who have
 * to run before the next step. Whoever runs on the step's processor then makes its call, and one who comes to run there meanwhile, or the
 * caller once it is back, says that the step is done. What was answered, by whom and when goes out once, at the end, by one processor;
 * tools/to-board --compare reads it.
 */
#include "board.h"
#include "board_case.h"

static volatile int_t step, entered;          /* steps that are done; steps that were begun */
static volatile uint_t entered_by;            /* who began the last one, in which of its lives */
static volatile int_t runs[BOARD_PROCESSORS]; /* who runs, as each says of itself while it waits for its step */
static volatile uint_t lives[256], ended;
static const struct board_case *board;

static volatile struct {
    int_t who, processor, code;
    intmax_t value;
    int_t back; /* how many steps had begun when it came back; 0: it did not */
} told[BOARD_MOST_STEPS + 1];

static int_t here(void) {
    ID processor;
    board_processor(&processor);
    return (int_t)processor;
}

/* --- blocks, by the numbers that the case has for them --- */

static void *block[BOARD_POOLS + 1][BOARD_BLOCKS];
static uint8_t is_out[BOARD_POOLS + 1][BOARD_BLOCKS];

static int_t is_block(board_number pool, board_number number) {
    return pool >= 1 && pool <= BOARD_POOLS && number >= 0 && number < BOARD_BLOCKS;
}

/* The block that the kernel gave where the case has this number, or an address that is none. */
static void *board_block(board_number pool, board_number number) {
    static int_t none;
    void *at = is_block(pool, number) ? block[pool][number] : NULL;
    return at != NULL ? at : (char *)&none + 1;
}

/* Which free block a kernel hands out is its own: it has to be one that is not out. Where the case has none, none is kept. */
static intmax_t handed_out(board_number pool, int_t number, void *at) {
    if (!is_block(pool, number))
        return 0;
    for (int_t i = 0; i < BOARD_BLOCKS; i++)
        if (is_out[pool][i] && block[pool][i] == at)
            return -1;
    block[pool][number] = at;
    is_out[pool][number] = 1;
    return number;
}

/* It is no more out before the call, since another may have it before the call comes back. */
static int_t give_back(board_number pool, board_number number) {
    int_t was = is_block(pool, number) && is_out[pool][number], code;
    if (was)
        is_out[pool][number] = 0;
    code = (int_t)rel_mpf((ID)pool, board_block(pool, number));
    if (was && code != 0)
        is_out[pool][number] = 1;
    return code;
}

/* --- a step --- */

/* Its call. What that writes through a pointer is its value. */
static int_t call_of(const struct board_step *it, intmax_t *value) {
    const board_number *a = it->a;
    ID id = 0;
    PRI priority = 0;
    FLGPTN pattern = 0;
    intptr_t data = 0;
    void *at = NULL;
    int_t code = 0;
    switch (it->call) {
#if BOARD_TICKS
    case BOARD_TICK_HERE: board_tick(); break;
#endif
#include "board_calls.h"
    default: return 1000;
    }
    return code;
}

/* Who runs makes the step's call; false where a handler is to return. */
static int_t make(int_t me, uint_t self, int_t now) {
    const struct board_step *it = &board->step[now];
    intmax_t value = 0;
    int_t code;
    told[now].who = me;
    told[now].processor = it->processor;
    entered_by = self;
    BOARD_BARRIER();
    entered = now + 1;
    if (it->call == BOARD_RETURNS) {
        told[now].back = now + 1;
        return 0;
    }
    code = call_of(it, &value);
    told[now].code = code;
    told[now].value = value;
    told[now].back = entered;
    BOARD_BARRIER();
    if (step == now && here() == it->processor)
        step = now + 1;
    return 1;
}

/* Another began it on this processor, where I run: so whatever it does is done. One that spins is done for others after a while. */
static int_t is_done(const struct board_step *it, int_t p, uint_t self, uint_t polls) {
    return it->processor == p ? entered_by != self : it->waits && polls > BOARD_SPIN;
}

static int_t all_run(int_t at) {
    for (int_t p = 0; p < BOARD_PROCESSORS; p++)
        if (runs[p] != board->step[at].runs[p])
            return 0;
    return 1;
}

/* --- the log --- */

static uint32_t sum;

static void print(const char *form, int_t a, int_t b, int_t c, int_t d, int_t e) {
    sum = ((((sum * 31U + (uint32_t)a) * 31U + (uint32_t)b) * 31U + (uint32_t)c) * 31U + (uint32_t)d) * 31U + (uint32_t)e;
    board_print(form, a, b, c, d, e);
}

static void print_step(int_t at) {
    uint64_t value = (uint64_t)told[at].value;
    print("board: step %d P%d %d back %d code %d", at + 1, told[at].processor, told[at].who, told[at].back, told[at].code);
    if (value != 0)
        print("board: step %d P%d %d value %d %d", at + 1, told[at].processor, told[at].who, (int_t)(value >> 32), (int_t)(value & 0xffffffffU));
}

static void tell(int_t stops, int_t at) {
    int_t many = entered;
    if (!BOARD_FIRST(ended))
        return;
    print("board: case %d of kit %d, ends %d at step %d on P%d", board->number, BOARD_KIT, !stops, at, here());
    for (int_t p = 0; p < BOARD_PROCESSORS; p++)
        print("board: P%d runs %d of %d at step %d, %d begun", p + 1, runs[p], board->step[at].runs[p], at, many);
    for (int_t i = 0; i < many; i++)
        print_step(i);
    board_print("board: end of case %d of kit %d, %d steps, sum %d", board->number, BOARD_KIT, many, sum & 0x7fffffffU, 0);
    board_end();
}

/* --- the body of all --- */

/* All run who have to, for long enough that one who runs and should not is seen. False where this life ends. */
static int_t settled(int_t me, uint_t self, int_t p, int_t now) {
    if (now == board->steps) {
        if (p == 1)
            tell(0, now);
        return p != 1;
    }
    return board->step[now].processor != p || make(me, self, now);
}

static uint_t new_life(int_t me) {
    board = &board_cases[BOARD_CASE - BOARD_FIRST_CASE]; /* the same for all */
    lives[me]++;
    return ((uint_t)me << 20) | ((uint_t)here() << 16) | (lives[me] & 0xffffU);
}

static void body(int_t me) {
    uint_t self = new_life(me), polls = 0, steady = 0;
    int_t last = 0;
    for (;;) {
        int_t p = here(), now = step, begun = entered;
        BOARD_BARRIER();
        runs[p - 1] = me;
        if (now != last)
            polls = steady = 0;
        last = now;
        if (begun > now && is_done(&board->step[now], p, self, polls)) {
            BOARD_BARRIER();
            step = now + 1;
            continue;
        }
        steady = begun <= now && all_run(now) ? steady + 1 : 0;
        if (steady > BOARD_SETTLE) {
            steady = 0;
            if (!settled(me, self, p, now))
                return;
        }
        if (++polls > BOARD_PATIENCE * (uint_t)p) {
            tell(now < board->steps || !all_run(now), now); /* at the end processor 1 may spin, so that another tells it */
            return;
        }
        board_pause();
    }
}

void board_task(BOARD_EXINF exinf) { body((int_t)exinf); }
void board_cyclic(BOARD_EXINF exinf) { body(100 + (int_t)exinf); }
void board_alarm(BOARD_EXINF exinf) { body(140 + (int_t)exinf); }
