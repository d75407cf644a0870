"""Which number stands for which block of a pool: a log has addresses. The free block with the smallest number is handed out, so a number is known while
it is known which are free.

Of two calls at once that get a block the log does not tell which came first. Either may have either number, since blocks differ in nothing else: so
their answers are not told, and what comes after them is."""
from log_answers import NO_VALUE, UNTOLD
from log_calls import BLOCKS, Refused

GOT, GIVEN_BACK = "E_OK:@", "rel_mpf"
NO_BLOCK = -1


class Pool:
    """The calls of a pool, in the order in which they are written, and its blocks that are handed out."""

    def __init__(self, name):
        self.name, self.events = name, []
        # The number and the line of each address, without a number where it is not known; the numbers of blocks whose address the log does not tell.
        self.handed, self.nameless = {}, []
        # Whether it is no longer known which blocks are free; the calls that are numbered before their turn.
        self.is_unsure, self.done = False, set()

    def least_free(self):
        taken = {number for number, _ in self.handed.values()} | set(self.nameless)
        return next(it for it in range(len(taken) + 1) if it not in taken)

    def at_once(self, at):
        """The other calls that were under way with one: those shortly before it, and those that began before it was over."""
        event = self.events[at]
        before = [it for it in self.events[max(0, at - 64):at] if over(it) >= event.low()]
        after = []
        for it in self.events[at + 1:at + 64]:
            if it.low() > over(event):
                break
            after.append(it)
        return before, after


    def next_at_once(self, at, wanted):
        """The place of the next call, of those still to be numbered, that was under way with one and is wanted."""
        for place, it in enumerate(self.at_once(at)[1], at + 1):
            if it not in self.done and wanted(it):
                return place
        return None


def over(event):
    """The moment by which a call was over."""
    high = event.high()
    return 2**63 if high is None else high


def address_of(code):
    return int(code[len(GOT):]) if code and code.startswith(GOT) else None


def may_get(event):
    """Whether a call gets a block at once, as far as it is told."""
    return event.name in BLOCKS and (event.answer in (None, UNTOLD) or event.answer.startswith("E_OK"))


def block_of(event):
    """The address of a block that is given back, while it has no number."""
    return int(event.text[:-1].split(", ")[1])


class Numbers:
    """Writes numbers in the place of addresses."""

    def __init__(self, events, trace, states_told, tell, place):
        self.trace, self.states_told, self.tell, self.place, self.pools = trace, states_told, tell, place, {}
        # The calls whose block has no number: a trace ends before the first of them.
        self.unknown = []
        for event in events:
            if event.name in BLOCKS or event.name == GIVEN_BACK:
                name = event.text.split("(")[1].rstrip(")").split(",")[0]
                self.pools.setdefault(name, Pool(name)).events.append(event)

    def write(self):
        for pool in self.pools.values():
            for at in range(len(pool.events)):
                self.number(pool, at)

    def number(self, pool, at):
        event = pool.events[at]
        if event in pool.done:
            return
        pool.done.add(event)
        if event.name == GIVEN_BACK:
            self.given_back(pool, at, event)
        elif event.answer in (None, UNTOLD) or event.answer == "wait" and not self.states_told:
            pool.is_unsure = True
        elif event.answer.startswith("E_OK"):
            self.got(pool, at, event)

    def got(self, pool, at, event):
        address = address_of(event.answer)
        before, after = pool.at_once(at)
        if address in pool.handed:
            self.was_given_back(pool, at, address)
        number = pool.least_free()
        # Where one is given back at once with this the smallest free one may be another.
        pool.is_unsure |= any(self.given(pool, it) == number for it in before) or any(self.freed(pool, it, number) for it in after)
        if pool.is_unsure:
            number = None
        if address is not None:
            pool.handed[address] = (number, event.line)
        elif number is not None:
            pool.nameless.append(number)
        is_told = address is not None and number is not None and not any(may_get(it) for it in before + after)
        event.answer = f"E_OK:{number}" if is_told else NO_VALUE
        if address is not None and not is_told:
            self.tell("note: which number this block has depends on what another call did at the same time, so that is not judged", event.line)

    def given(self, pool, event):
        """The number of a block that was given back to its pool, or nothing."""
        return int(event.text[:-1].split(", ")[1]) if event.name == GIVEN_BACK and event.answer == "E_OK" and not self.goes_on(event) else None

    def freed(self, pool, event, number):
        """Whether a call that is still to be numbered gives back a block with a smaller number than this."""
        if event.name != GIVEN_BACK or event in pool.done or event.answer not in ("E_OK", UNTOLD, None) or self.goes_on(event):
            return False
        known = pool.handed.get(block_of(event))
        return known is not None and (known[0] is None or known[0] < number)

    def was_given_back(self, pool, at, address):
        """A block that is got twice was given back between: by a call that was under way at once, or else the log contradicts itself."""
        between = pool.next_at_once(at, lambda it: it.name == GIVEN_BACK and it.answer == "E_OK" and block_of(it) == address)
        if between is not None:
            self.number(pool, between)
        elif not pool.is_unsure:
            _, line = pool.handed[address]
            raise Refused(f"block {address:#x} of {pool.name} is got, and it was handed out at line {self.place(line)[1]}", pool.events[at].line)

    def goes_on(self, event):
        """Whether a block that is given back goes to a task that waits."""
        return any(event in it.causes for it in event.ends or ())

    def given_back(self, pool, at, event):
        address = block_of(event)
        if address not in pool.handed and event.answer == "E_OK":
            got = pool.next_at_once(at, lambda it: address_of(it.answer) == address)
            if got is not None:
                self.number(pool, got)
        number, _ = pool.handed.get(address, (None, 0))
        if address not in pool.handed and pool.nameless and event.answer == "E_OK":
            number = pool.nameless.pop()
            pool.handed[address] = (number, event.line)
        if number is not None:
            event.text = f"{GIVEN_BACK}({pool.name}, {number})"
        elif self.trace and (address in pool.handed or pool.is_unsure):
            self.unknown.append(event)
        else:
            self.tell("note: the log does not say which number this block has: it is an address on the target, and a number from 0 in fmpsim, to be written "
                      "here by hand", event.line)
        self.ended_waits(pool, event)
        if event.answer in (None, UNTOLD) or not self.states_told and any(it.answer == "wait" for it in pool.events):
            pool.is_unsure = True
        if event.answer == "E_OK" and not self.goes_on(event):
            pool.handed.pop(address, None)

    def ended_waits(self, pool, event):
        """The block goes to a task that waits for it, whose call has to answer the same one."""
        for ended in event.ends or ():
            address = address_of(ended.code)
            if address is None:
                continue
            number, _ = pool.handed.get(address, (None, 0) if pool.is_unsure else (NO_BLOCK, 0))
            ended.code = NO_VALUE if number is None else f"E_OK:{number}"
            pool.is_unsure |= len(ended.causes) > 1
