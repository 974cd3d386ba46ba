"""When the program looked at DOUT: the times of the lines 15 to 18. The last chip's words say whether its keypad is on and whether a
readout runs; which edge of a stretch wrote the line is found when the line has come."""
from show import is_system

from .stretch import MOST, RECORDED

RESET = 0x201
READ = 7            # a read word's high four bits
KEYB = 2
DOUT = 8
BITS = 7            # of a readout


class Looks:
    """The last chip, from one LOAD rise to the next."""

    def __init__(self, stretch):
        self.stretch = stretch
        self.keyb = False
        self.reading = False        # whether the rise before the stretch began a readout
        self.quiet = True           # whether DOUT was high when last looked at, before the stretch
        self.interrupts = 0         # lines 18 in it
        self.found = ()             # their times, as found when the stretch had so many parts
        self.parts = 0

    def next(self, stretch):
        """LOAD rose: another stretch begins. That rise was a look too, unless a readout ran; in a stretch that is longer than what is kept
        none does any more."""
        if self.keyb:
            last = self.stretch.last or 0
            looked = not self.reading or self.stretch.count > MOST
            self.quiet = bool(last & DOUT) if looked and last >= RECORDED else self.lows()[1]
        self.stretch = stretch
        self.interrupts = self.parts = 0
        self.found = ()

    def obeyed(self, word):
        """The word of the last chip at that rise."""
        if word == RESET:
            self.keyb = False
        elif is_system(word):
            self.keyb = bool(word & KEYB)
        self.reading = self.keyb and word >> 8 == READ
        self.quiet = self.quiet or self.reading

    def lows(self):
        """The times at which DOUT was found low, and high before, outside of a readout; and whether it was high in the end."""
        left = BITS if self.reading else 0
        quiet = self.quiet
        times = []
        for time, was, falls, looking in self.stretch.edges():
            if left:
                left -= falls
            elif looking and was >= RECORDED:
                if quiet and not was & DOUT:
                    times.append(time)
                quiet = bool(was & DOUT)
        return times, quiet

    def cut(self):
        """The time at which a readout was cut: at a bit that wasn't recorded, or at its seventh fall, or by LOAD."""
        count = 0
        for time, was, falls, looking in self.stretch.edges():
            count += falls
            if falls and (looking and was < RECORDED or count == BITS):
                return time
        return self.stretch.ended if self.stretch.count <= MOST else None

    def read(self):
        """The time of the seventh fall, at which a code was read, or None where it isn't kept."""
        falls = [time for time, _, falls, _ in self.stretch.edges() if falls]
        return falls[BITS - 1] if len(falls) >= BITS else None

    def time(self, line):
        """The time of a line, or None."""
        if line[:2] == "15":
            return self.stretch.time_at(int(line[2:], 16))
        if line[:2] == "16":
            return self.read()
        if line[:2] == "17":
            return self.cut()
        self.interrupts += 1
        parts = len(self.stretch.parts)
        if self.interrupts > len(self.found) and self.parts != parts:
            self.parts, self.found = parts, self.lows()[0]
        return self.found[self.interrupts - 1] if self.interrupts <= len(self.found) else None
