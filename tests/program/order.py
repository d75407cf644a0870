"""order.py SEED TICKS TURNS: the trace of a run by this seed, as docs/formats/scripts.md ("The order of turns") has it. There are two
processors, whose tasks T1 and T2 call get_pid() for ever, and each processor takes so many ticks."""
import sys

seed, ticks, turns = map(int, sys.argv[1:])
BITS = 2**64 - 1
due = ["P1 T1", "P2 T2"] * ticks
for line in range(1, turns + 1):
    seed = (seed + 0x9E3779B97F4A7C15) & BITS
    number = ((seed ^ (seed >> 30)) * 0xBF58476D1CE4E5B9) & BITS
    number = ((number ^ (number >> 27)) * 0x94D049BB133111EB) & BITS
    number ^= number >> 31
    movers = ["P1 T1 get_pid() E_OK:1", "P2 T2 get_pid() E_OK:2"]
    if due:
        movers.append(f"{due[0]} tick taken")
    move = movers[number % len(movers)]
    if move.endswith("taken"):
        due.pop(0)
    print(line, move)
