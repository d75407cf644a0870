"""Writes the events of a log as a list of events, or as a partial trace, in the order in which they began."""
import bisect
from array import array
from operator import attrgetter

from log_answers import UNTOLD
from log_calls import Ends
from log_pools import Numbers

# It began, and the log tells no end of it: it took effect or not.
OPEN = "open"
# How many lines before a line may still come after it.
MOST_OPEN = 16


def releases(event, tell):
    """The fields of the tasks whose waits the event ended: all of them, or none where the log does not tell one."""
    own = [it for it in event.ends if event in it.causes]
    shared = next((it for it in own if it.other or len(it.causes) > 1), None)
    if shared is not None:
        tell("note: more than one event may have ended this wait, so which one is not judged", shared.line)
        return ""
    for it in own:
        if it.code is None:
            tell("note: the log does not say with what this wait ended, so that is not judged", it.line)
    return "".join(f" rel={it.task}:{it.said()}" for it in own)


def trace_line(event, bound, tell):
    runner = event.runner + " " if event.runner else ""
    ends = releases(event, tell) if event.ends else ""
    run = f" run={event.run}" if event.run else ""
    by = f" by={bound}" if bound else ""
    return f"P{event.processor} {runner}{event.text} {event.answer}{ends}{run}{by}\n"


def bounds_of(events):
    """Of each event the last line whose event may take effect before it, or 0 where that is its own."""
    lows = array("q", (it.low() for it in events))
    for place, event in enumerate(events, 1):
        high = event.high()
        bound = len(lows) if high is None else bisect.bisect_right(lows, high)
        yield bound if bound > place else 0


class Writer:
    """The events of a log that a trace has, and the line of the log before which it ends, with the reason, if it ends before the log does."""

    def __init__(self, reader, tell):
        self.reader, self.tell = reader, tell
        self.events, self.end = reader.events, reader.end

    def end_before(self, place, why):
        """The trace ends before the event at this place, which may have taken effect before those that were not over when it began."""
        event = self.events[place]
        self.events, self.end = self.events[:place], Ends(why, event.at)
        for it in self.events:
            if it.high() is None or it.high() >= event.low():
                self.leave_open(it)

    def leave_open(self, event):
        event.answer, event.run, event.ends, event.end, event.told = OPEN, None, None, None, False

    def see_what_is_open(self):
        """Sees which events were under way where the log ends, and which of them took effect."""
        handlers = [it.event for at in self.reader.processors for it in at.handlers if it.event is not None]
        for event in handlers:
            self.see_handler(event)
        for event in self.events:
            if event.answer is None and (event.told or event.over):
                self.tell(f"note: {event.name} of this line does not return in the log, so what it answered is not judged", event.line)
                event.answer = UNTOLD
            elif event.answer in (None, "gone") and not event.told and event.end is None:
                self.tell(f"note: {event.name} of this line is under way where the log ends, so whether it took effect is not judged", event.line)
                self.leave_open(event)
            if event.ends and event.answer == UNTOLD and event.end is None and not event.over:
                self.drop_ends(event)

    def see_handler(self, event):
        """An interrupt whose handler is not left took effect if a handler is due by it, or a wait ended."""
        if event.end is None and not event.told:
            event.answer = None
        elif event.ends:
            self.drop_ends(event)

    def drop_ends(self, event):
        """The log ends before it may have told of all waits that the event ended."""
        self.tell(f"note: the log ends before {event.name} of this line is over, so the waits that it ended are not judged", event.line)
        event.ends = None

    def tell_untold(self):
        untold = self.reader.untold
        if untold:
            more = f", and of {untold - 1} more" if untold > 1 else ""
            self.tell(f"note: no line says by what the wait in this call ended{more}, so how it ended is not judged", self.reader.first_untold)

    def number_blocks(self, trace):
        numbers = Numbers(self.events, trace, self.reader.states_told, self.tell, self.reader.lines.place)
        numbers.write()
        unknown = set(numbers.unknown)
        place = next((place for place, it in enumerate(self.events) if it in unknown), None) if unknown else None
        if place is not None:
            self.end_before(place, f"no line tells which number the block of {self.events[place].name} has")

    def end_where_crowded(self):
        """The trace ends where too many events are under way at once for their orders to be searched."""
        later = []
        for place, bound in enumerate(bounds_of(self.events)):
            later = [it for it in later if it > place]
            if len(later) > MOST_OPEN:
                self.end_before(place, f"more than {MOST_OPEN} events are under way at once")
                return
            if bound:
                later.append(bound)

    def lines(self):
        yield from (trace_line(event, bound, self.tell) for event, bound in zip(self.events, bounds_of(self.events)))
        if self.end is not None:
            self.tell(f"the trace ends here: {self.end}", self.end.line)
            yield f"ends {self.reader.lines.place(self.end.line)[1]}\n"


def written(reader, trace, tell):
    """The lines of the events, one after the other."""
    # This is the order of their moments, without a new number for each. Events after the same line stay as they were told.
    reader.events.sort(key=attrgetter("at"))
    writer = Writer(reader, tell)
    if trace:
        writer.see_what_is_open()
        writer.tell_untold()
    if any(reader.machine.names["pool"]):
        writer.number_blocks(trace)
    if trace:
        writer.end_where_crowded()
    return writer.lines() if trace else (f"P{it.processor} {it.text}\n" for it in writer.events)
