"""Draws the times of a log's lines around the events of a trace. Event N takes effect at the time N, and what becomes of tasks by it is logged then. What a
processor logs before and after it may stand anywhere between its events, in its order: so calls of several processors overlap."""

# Where a line stands: before its event, where that takes effect, or after it.
BEFORE, IN, AFTER = "before", "in", "after"
# What is logged up to a dispatch comes before the next event of any processor.
SOON = 0.9


class Line:
    """A line of a log: its processor, and the number of the event around which it stands."""

    __slots__ = ("processor", "text", "event", "place", "time", "is_quick")

    def __init__(self, processor, text, event, place):
        self.processor, self.text, self.event, self.place = processor, text, event, place
        self.time, self.is_quick = float(event), False


def spread_out(lines, mean, random):
    """The lines in the order of their times, about so many events away from their own."""
    end = max((it.event for it in lines), default=0) + mean
    own = {}
    for it in lines:
        own.setdefault(it.processor, []).append(it)
    for of_processor in own.values():
        draw(of_processor, end, mean, random)
    return sorted(lines, key=lambda it: it.time)


def draw(lines, end, mean, random):
    """Draws the times of a processor's lines."""
    # The event before those lines that are to be drawn; the one that they stand before, if there is one.
    last, coming, between = 0, None, []
    for it in lines:
        if coming is not None and (it.event != coming or it.place != BEFORE) or it.place != BEFORE and it.event != last:
            effect = it.event if coming is None else coming
            put_between(between, last, effect, mean, random)
            last, coming, between = effect, None, []
        if it.place != IN:
            between.append(it)
        if it.place == BEFORE:
            coming = it.event
    put_between(between, last, end if coming is None else coming, mean, random)


def put_between(lines, low, high, mean, random):
    """Draws the times of lines between two events."""
    quick, others = [it for it in lines if it.is_quick], [it for it in lines if not it.is_quick]
    for line, time in zip(quick, sorted(random.uniform(low, low + SOON) for _ in quick)):
        low = line.time = time
    for line, time in zip(others, sorted(near(it, low, high, mean, random) for it in others)):
        line.time = time


def near(line, low, high, mean, random):
    """A time between these, about so far away from the line's event."""
    away = random.expovariate(1 / mean)
    time = line.event + (away if line.place == AFTER else -away)
    return time if low < time < high else random.uniform(low, high)
