"""A file of times: a line for each sample of a stream, in seconds."""
from decimal import Decimal
from itertools import islice

from probe.refusal import Unreadable, WrongTimes, shown
from probe.source import named, stream_of
from probe.times import PLAIN


class Moments:
    """The times of a stream's samples, in their order."""

    def __init__(self, path):
        self.name = named(path)
        self.line = 0
        self.last = None
        self.wrong = None           # what is wrong with them, where they can't be read on
        try:
            self.file = stream_of(path)
        except Unreadable as refused:
            raise WrongTimes("%s can't be read: %s" % (self.name, refused.why)) from None

    def take(self, count):
        """The next so many; fewer where they end or are wrong."""
        times = []
        for line in islice(self.file, count):
            time = line.decode("latin-1").rstrip("\r\n")
            self.line += 1
            if not PLAIN.fullmatch(time):
                self.wrong = WrongTimes("%s, line %d: '%s' is no time" % (self.name, self.line, shown(time)))
                break
            if self.last is not None and self.falls(time):
                say = self.name, self.line, shown(time), shown(self.last)
                self.wrong = WrongTimes("%s, line %d: time %s comes after time %s" % say)
                break
            self.last = time
            times.append(time)
        return times

    def falls(self, time):
        """Whether a time is before the last one."""
        same = len(time) == len(self.last) and time[:1] != "-"
        return not (same and self.last <= time) and Decimal(time) < Decimal(self.last)

    def fewer(self):
        """There is none for the next sample."""
        return self.wrong or WrongTimes("%s: there are fewer times than samples: %d" % (self.name, self.line))

    def end(self):
        """The samples end; so must the times."""
        if next(iter(self.file), b""):
            raise WrongTimes("%s, line %d: there are more times than samples" % (self.name, self.line + 1))


class Untimed:
    """A stream whose samples have no times."""

    def take(self, count):
        """There are none."""
        return None

    def end(self):
        """Nor are there more of them."""
