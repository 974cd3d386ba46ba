"""Where the lines come from: the LOAD rises of a stream with their times, and the scans that may light a chip, in their order; and of
samples with a recorded DOUT what tells the times of the lines 15 to 18."""
import re
from collections import deque

from probe.refusal import WrongTimes

from .stretch import IDLE, Stretch

LOADS = bytes(level >> 2 & 1 for level in range(256))
NO_SAMPLE = re.compile(rb"[^\x00-\x07\x10-\x1f]")
WITH_DOUT = re.compile(rb"[\x10-\x1f]")
HEAD = re.compile(rb"\x00\x01[\x01-\x08]")
SCAN = 0x80
DOUT = 8
WAKING = bytes(byte & 0x0F for byte in range(256))      # the contacts of SEG0 to SEG3, which wake a chip
LINE = re.compile(rb"01(?:0[0-7]){1,32}|020[0-7](?:[0-9A-F]{2}){8}|00010[1-8]")
LONGEST_LINE = 2 + 2 * 32


class Events:
    """What happened, for the one who reads the lines: the stretch of samples that each LOAD rise begins, with its time, or the chip of a
    scan that may wake it."""

    def __init__(self):
        self.waiting = deque()
        self.known = False          # whether there are times
        self.chips = 0
        self.width = 0              # characters of the first time
        self.level = IDLE
        self.offset = 3             # of the next byte, in a raw stream
        self.looking = False        # whether a sample with a recorded DOUT has come
        self.douts = set()          # the levels of DOUT that were recorded
        self.first = self.stretch = Stretch(None, False)        # before the first rise, and now
        self.scanned = set()        # the chips of such scans since the last rise

    def samples(self, samples, times):
        """Samples, and their times, or None."""
        with_dout = WITH_DOUT.search(samples)
        if with_dout:
            self.douts |= {sample & DOUT for sample in set(samples) if sample >= 0x10}
        if times is not None:
            self.timed(samples, times, with_dout.start() if with_dout else len(samples))
        self.looking = self.looking or bool(with_dout)
        self.level = samples[-1]
        self.offset += len(samples)

    def timed(self, samples, times, dout):
        """The stretches of samples with times. `dout` is the place of the first with a recorded DOUT."""
        self.known = True
        self.width = self.width or len(times[0])
        kept = self.looking or dout < len(samples)
        loads = (bytes([self.level]) + samples).translate(LOADS)
        start = 0
        at = loads.find(b"\0\1")
        while at >= 0:
            if kept:
                self.stretch.take(self.offset + start, samples[start:at + 1], times[start:at + 1])
                self.stretch.end(samples[at - 1] if at else self.level, times[at])
            else:
                self.stretch.drop()
            self.stretch = Stretch(times[at], self.looking or dout < at)
            self.waiting.append(self.stretch)
            self.scanned.clear()
            start = at
            at = loads.find(b"\0\1", at + 1)
        self.stretch.take(self.offset + start, samples[start:], times[start:])

    def scan(self, chip, contacts):
        """A scan. After the first that may wake a chip it is awake, up to the next rise."""
        self.offset += 9
        if contacts.translate(WAKING).strip(b"\0") and chip not in self.scanned:
            self.scanned.add(chip)
            self.waiting.append(chip)


class Stream:
    """A stream that passes: its samples are counted off against the times. An item is passed on when it has come whole, or the stream
    ends. What isn't of the form is passed on as it is: the program refuses it."""

    def __init__(self, moments, events):
        self.moments, self.events = moments, events
        self.rest = b""
        self.step = None            # what looks at the next bytes; None where nothing is looked at any more
        self.refused = None         # why no more can be passed on

    def take(self, data):
        """The bytes that may be passed on, now that these have come."""
        self.rest += data
        if self.step is None and self.moments and self.rest:
            self.step = self.raw if self.rest[0] == 0 else self.text
        count = len(self.rest)
        if self.step and self.moments:
            try:
                count = self.step()
            except WrongTimes as wrong:
                self.refused, count = wrong, self.done
        passed, self.rest = self.rest[:count], self.rest[count:]
        return passed

    def over(self):
        """Nothing more is looked at, nor are there times to be counted."""
        self.moments = None
        return len(self.rest)

    def end(self):
        """The stream ends: what may be passed on still."""
        if self.moments and not self.rest:
            self.moments.end()
        return self.rest

    def samples(self, samples):
        """Samples that are next; an exception where there aren't times for all of them. How many had one is in `had`."""
        times = self.moments.take(len(samples))
        self.had = len(samples) if times is None else len(times)
        if self.had:
            self.events.samples(samples[:self.had], times)
        if self.had < len(samples):
            raise self.moments.fewer()

    # ---- a raw stream ----

    def raw(self):
        """How many bytes of a raw stream may be passed on."""
        data = self.rest
        self.done = 0
        if not self.events.chips:
            if len(data) < 3:
                return 0
            if not HEAD.match(data):
                return self.over()
            self.events.chips = data[2]
            self.done = 3
        while self.done < len(data):
            mark = NO_SAMPLE.search(data, self.done)
            end = mark.start() if mark else len(data)
            if end > self.done:
                try:
                    self.samples(data[self.done:end])
                finally:
                    self.done += self.had
            if mark and not SCAN <= data[end] < SCAN + self.events.chips:
                return self.over()
            if mark:
                if len(data) < end + 9:
                    break
                self.events.scan(data[end] - SCAN, data[end + 1:end + 9])
                self.done = end + 9
        return self.done

    # ---- a text ----

    def text(self):
        """How many bytes of a text may be passed on: whole lines."""
        *lines, last = self.rest.split(b"\n")
        self.done = 0
        for line in lines:
            frame = bytes.fromhex(line.decode("ascii")) if LINE.fullmatch(line) else b""
            if not frame or bool(self.events.chips) == (frame[0] == 0) or frame[0] == 2 and frame[1] >= self.events.chips:
                return self.over()
            if frame[0] == 0:
                self.events.chips = frame[2]
            elif frame[0] == 1:
                self.samples(frame[1:])
            else:
                self.events.scan(frame[1], frame[2:])
            self.done += len(line) + 1
        return self.over() if len(last) > LONGEST_LINE else self.done
