"""life.py CFG NAMES < STATES: what `calls --of=NAMES` has to write, made of what `calls --state` wrote. CFG has numbers in its
statements, and no names in their place."""
import re
import sys

FIRST = {
    'SEM': lambda fields: f' count={int(fields[1])}',
    'FLG': lambda fields: f' pattern={int(fields[1])}',
    'DTQ': lambda fields: ' empty',
    'MPF': lambda fields: f' free={int(fields[1])}',
    'CYC': lambda fields: f' left={int(fields[4]) + 1}' if 'TA_STA' in fields[0] else ' stopped',
    'ALM': lambda fields: ' stopped',
    'SPN': lambda fields: ' free',
    'TSK': lambda fields: '',
}


def configured(text):
    """The kind of each object, and what is told of it where a state has no line of it."""
    text = re.sub(r'/\*.*?\*/|//[^\n]*', '', text, flags=re.DOTALL)
    found = re.findall(r'CRE_([A-Z]{3})\(\s*(\w+)\s*,\s*\{(.*?)\}\s*\)', text, flags=re.DOTALL)
    return {name: (kind, FIRST[kind]([field.strip() for field in fields.split(',')])) for kind, name, fields in found}


def told(name, kind, first, state):
    """The line of an object in a state."""
    own = next((line[len(name) + 2:] for line in state if line.split()[0] == name and not re.match(r'  P\d+ ', line)), '')
    heads = [re.fullmatch(r'  (P\d+) run=(\S+)(?: ready=(\S+))?.*?(?: due=(\S+))?', line) for line in state]
    heads = [head for head in heads if head]
    if kind != 'TSK':
        due = any(name in (head[4] or '').split(',') for head in heads)
        return f'  {name}{own or first}' + (' due' if due else '')
    for head in heads:
        if head[2] == name:
            return f'  {name} running {head[1]}{own}'
        if name in (head[3] or '').split(','):
            return f'  {name} ready {head[1]}{own}'
    return f'  {name}{own or " dormant"}'


def main():
    objects = configured(open(sys.argv[1], encoding='ascii').read())
    names = sys.argv[2].split(',')
    event, state, before = None, [], [None] * len(names)
    for line in sys.stdin.read().splitlines():
        if not line.startswith(' '):
            event = line
        elif line != '  end':
            state.append(line)
        else:
            now = [told(name, *objects[name], state) for name in names]
            keys = [re.sub(r' left=\d+', ' left', text) for text in now]
            changed = [text for text, key, last in zip(now, keys, before) if key != last]
            if changed and event:
                print(event)
            for text in changed:
                print(text)
            state, before = [], keys


main()
