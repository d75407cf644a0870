"""drawn.py SEED TICKS TURNS [late] [stalls]: the trace of the order that this seed draws, as docs/formats/scripts.md ("The order of turns") has it.
On the first of two processors T1 activates T3 and ends. On the second one T2 calls get_pid() for ever, and T3, which is more urgent, ends at once. Each
processor takes so many ticks."""
import sys

seed, ticks, turns = map(int, sys.argv[1:4])
late, stalls = ("late" in sys.argv[4:]), ("stalls" in sys.argv[4:])
BITS = 2**64 - 1


def drawn():
    global seed
    seed = (seed + 0x9E3779B97F4A7C15) & BITS
    number = ((seed ^ (seed >> 30)) * 0xBF58476D1CE4E5B9) & BITS
    number = ((number ^ (number >> 27)) * 0x94D049BB133111EB) & BITS
    return number ^ (number >> 31)


first = ["act_tsk(T3) E_OK ipi=2", "ext_tsk() gone run=idle"]
left = [ticks, ticks]
pending, running = False, "T2"
still, lines_left = 0, 0
for line in range(1, turns + 1):
    choices = []
    if first:
        choices.append((0, "call"))
    if left[0]:
        choices.append((0, "tick"))
    if late or not pending:
        choices.append((1, "call"))
    if pending:
        choices.append((1, "ipi"))
    if left[1]:
        choices.append((1, "tick"))
    number = drawn()
    lines_left = max(0, lines_left - 1)
    if stalls and not lines_left and number % 32 == 0:
        still, lines_left = number // 32 % 2, number // 4096 % 128 + 1
    awake = [choice for choice in choices if not (lines_left and choice[0] == still)] or choices
    processor, what = awake[drawn() % len(awake)]
    if processor == 0:
        if what == "tick":
            left[0] -= 1
            print(line, "P1", "T1" if first else "-", "tick taken")
        else:
            pending = pending or len(first) == 2
            print(line, "P1 T1", first.pop(0))
        continue
    # whatever its second processor does, a pending request ends there with the switch to T3
    change = " run=T3" if pending else ""
    if what == "tick":
        left[1] -= 1
        print(line, f"P2 {running} tick taken{change}")
    elif what == "ipi":
        print(line, f"P2 T2 ipi taken{change}")
    elif running == "T3":
        print(line, "P2 T3 ext_tsk() gone run=T2")
        running = "T2"
    else:
        print(line, f"P2 T2 get_pid() E_OK:2{change}")
    if pending:
        pending, running = False, "T3"
