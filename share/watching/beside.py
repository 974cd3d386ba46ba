"""What stands beside a line: its time, or why it is a refusal; and which lines are shown."""
import re
from decimal import Decimal

from probe.refusal import BadUsage, Unwritten

from .looks import Looks
from .stretch import Stretch

SLEEP = 0x202
LOOKED = ("15", "16", "17", "18")     # lines of looks at DOUT
DARK = "0" * 16
FORM = "refusal 10, line %d: the line isn't of the form that a capture text has, or is missing"
ITEM = "refusal 10, byte offset %d: the byte can't stand there in a stream, or is missing"
LONG = {"watch": "refusal 11: the text has more than 4,294,967,295 lines"}


def refusal(command):
    """What a line 1F NUMBER PLACE says, as the plain command says it: a function of the line. A place of eight bytes is an offset."""
    def said(line):
        if line[2:4] == "0B":
            return LONG.get(command, "refusal 11: the text is longer than 65,536 bytes; watch takes it")
        return (ITEM if len(line) == 20 else FORM) % int(line[4:], 16)
    return said


class Bounds:
    """The times that --from and --to give: lines before or after them aren't shown."""

    def __init__(self, given):
        self.options = " and ".join("--" + name for name in ("from", "to") if name in given)
        self.low, self.high = (self.bound(given, name) for name in ("from", "to"))
        if None not in (self.low, self.high) and self.low > self.high:
            raise BadUsage("--from is after --to")

    def bound(self, given, name):
        """One of them, or None."""
        value = given.get(name)
        if value is not None and not re.fullmatch(r"-?([0-9]+\.?[0-9]*|\.[0-9]+)", value):
            raise BadUsage("--%s takes seconds, as 0.25" % name)
        return None if value is None else Decimal(value)

    def shows(self, line, time):
        """Whether a line is shown: where there are bounds, one with a time within them, and a refusal."""
        if not self.options or line.startswith("1F"):
            return True
        if time is None:
            return False
        time = Decimal(time)
        return (self.low is None or self.low <= time) and (self.high is None or time <= self.high)


class Clock:
    """Gives each line its time, as the lines come: a LOAD rise writes a line for each chip, a look at DOUT has its own time (looks.py),
    and a scan's line has none. On a screen the lines of rises and scans look the same, and the words of the rises tell them apart: a scan
    writes a line where it wakes a chip that then is lit. Asleep is a chip whose last word is sleep, and what it would show is what it
    showed when it last was awake."""

    def __init__(self, events, words):
        self.events, self.words = events, words
        self.looks = Looks(events.first)
        self.time = None
        self.left = 0               # lines of the same rise that are still to come
        self.obeyed = []            # the words of this rise
        self.asleep = set()
        self.awake = {}             # what each chip showed when it was awake

    def of(self, line):
        """The time of a line, or None."""
        if not self.events.known:
            return None
        if line[:2] in LOOKED:
            return self.looks.time(line)
        if line[:2] not in ("10", "30") or not self.left and not self.rise():
            return None
        self.left -= 1
        if self.words:
            chip = int(line[2:4], 16)
            if self.obeyed[chip] == SLEEP:
                self.asleep.add(chip)
            else:
                self.asleep.discard(chip)
                self.awake[chip] = line[4:]
        if not self.left and (self.words or line[:2] == "10"):
            self.looks.obeyed(self.obeyed[-1] if self.words else int(line[4:], 16))
        return self.time

    def rise(self):
        """Whether the next line is that of a LOAD rise; its time is then in `time`."""
        while True:
            event = self.events.waiting.popleft()
            if isinstance(event, Stretch):
                break
            if self.words and event in self.asleep:
                self.asleep.discard(event)
                if self.awake.get(event, DARK) != DARK:
                    return False
        self.time, self.left = event.time, self.events.chips
        self.looks.next(event)
        if self.words:
            self.obeyed = self.words.rises.get()
            if self.obeyed is None:
                raise Unwritten("the program watch failed, which tells the words beside the screen")
        return True

    def column(self, time):
        """The time before a line, as wide as those before it."""
        if not self.events.known:
            return ""
        self.events.width = max(self.events.width, len(time or ""))
        return "%s s  " % time.rjust(self.events.width) if time else " " * (self.events.width + 4)
