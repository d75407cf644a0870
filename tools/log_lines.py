"""The lines of a kernel's logs, in the order of their times, each with its place: its file and its number there."""
import heapq
import io
import re

from log_calls import Refused

LINE = re.compile(r"\[(\d{1,20})\]:? ?\[(\d{1,20})\]:? ?(?![: ]*\[\d)(.*)", re.A | re.S)
# A terminal may have written its own time before each line.
STAMPED = re.compile(r"\S.{0,39}? " + LINE.pattern, re.A | re.S)
LOST = re.compile(r"(\d{1,20}) messages? (?:are|is|were|was) lost", re.A)
MOST_BYTES = 1073741824
TURN = 2**32


class Lines:
    """The lines of some logs of one run. A line's place is its number, or, of several logs, its number in the order of all."""

    def __init__(self, paths, tell):
        self.paths, self.tell = paths, tell
        # Of several logs the file and the number of each line; of each log how many lines tell of no event, and the first of them.
        self.places, self.passed, self.contents = [], {}, []

    def load(self):
        self.contents = [content(path) for path in self.paths]

    def tells(self, words):
        """Whether a log has these words."""
        return any(words in it for it in self.contents)

    def place(self, line):
        """The path and the number that stand for a line in messages: of its place, or of its file and its number there."""
        if not isinstance(line, tuple):
            line = self.places[line - 1] if self.places and line else (0, line)
        return self.paths[line[0]], line[1]

    def read(self):
        """Each line of a log: its place, its processor and its text; of a gap the number of messages that are lost, without a processor."""
        if len(self.paths) > 1:
            logs = [self.timed(file) for file in range(len(self.paths))]
            for _, file, line, processor, text in heapq.merge(*logs, key=lambda it: it[0]):
                self.places.append((file, line))
                yield len(self.places), processor, text
            return
        for _, _, line, processor, text in self.timed(0):
            yield line, processor, text

    def pass_over(self, line):
        """A line that tells of no event, by its place, or by its file and its number there."""
        file, line = line if isinstance(line, tuple) else self.places[line - 1] if self.places else (0, line)
        times, first = self.passed.get(file, (0, line))
        self.passed[file] = (times + 1, first)

    def tell_passed(self):
        for file, (times, first) in sorted(self.passed.items()):
            self.tell("passed over: what tells of no event, this line the first" + (f", and {times - 1} more" if times > 1 else ""), (file, first))

    def timed(self, file):
        """The lines of one log, with the time of each. A clock of 32 bits that begins again goes on."""
        last, turns = 0, 0
        for line, raw in enumerate(io.BytesIO(self.contents[file]), 1):
            text = raw.decode(errors="replace").rstrip()
            lost = " lost" in text and LOST.search(text)
            found = LINE.match(text) or STAMPED.match(text)
            if lost:
                yield last, file, line, None, lost[1]
            elif found:
                time = int(found[1]) + turns
                if time < last:
                    if not last - turns >= TURN - TURN // 4 or last - turns >= TURN or int(found[1]) >= TURN // 4:
                        raise Refused(f"the time goes back, from {last} to {time}: merge the logs of the processors by their times, as "
                                      "`sort -s -n -k 1.2` does, or name each log", (file, line))
                    self.tell("note: the clock of 32 bits begins again at 0 here", (file, line))
                    turns, time = turns + TURN, time + TURN
                last = time
                yield time, file, line, found[2], found[3].removesuffix(".")
            elif text:
                self.pass_over((file, line))


def content(path, most=MOST_BYTES):
    """The bytes of a file, or of standard input."""
    try:
        with open(0 if path == "-" else path, "rb") as file:
            it = file.read(most + 1)
    except OSError as error:
        raise Refused(f"cannot be read: {error.strerror}", (path, 0), 3) from None
    if len(it) > most:
        raise Refused(f"it has more than {most} bytes", (path, 0))
    return it
