"""changes.py < STATES: what `calls --changes` has to write, made of what `calls --state` wrote."""
import re
import sys


def name(line):
    return line.split()[0]


def is_processor(line):
    return re.fullmatch(r'P[0-9]+', name(line)) is not None


def main():
    before, state = None, []
    for line in sys.stdin.read().splitlines():
        if line.startswith('  ') and line != '  end':
            state.append(line)
            continue
        if line != '  end':
            print(line)
            continue
        # the state at boot is whole
        new = state if before is None else [line for line in state if is_processor(line) or line not in before]
        names = {name(line) for line in state}
        gone = [name(line) for line in before or [] if name(line) not in names]
        for told in new:
            print(told)
        for left in gone:
            print(f'  {left}')
        print('  end')
        before, state = state, []


main()
