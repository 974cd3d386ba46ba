"""The samples between two LOAD rises, as far as the times of the lines 15 to 18 need them."""

IDLE = 7
DCLK, LOAD = 2, 4
RECORDED = 0x10     # a sample from here on has a recorded DOUT
MOST = 1024         # samples that are kept of a stretch; a row for eight chips and a readout have 208 edges


class Stretch:
    """The samples from a LOAD rise, or the start, to the next, which belongs to both stretches. Of a long one the first are kept, and of
    one before any recorded DOUT none, once it is over."""

    def __init__(self, time, looking):
        self.time = time            # of the rise that begins it, or None
        self.looking = looking      # whether a sample with a recorded DOUT came before that rise
        self.parts = []             # offset, samples, and their times in one text
        self.count = 0              # of its samples, those that aren't kept too
        self.last = None            # where it is over: the sample before the rise that ends it, and the time of that rise
        self.ended = None

    def take(self, offset, samples, times):
        """Samples, the first of which has the offset, and their times."""
        room = MOST - self.count
        if samples and room > 0:
            self.parts.append((offset, samples[:room], " ".join(times[:room])))
        self.count += len(samples)

    def end(self, last, time):
        """It is over."""
        self.last, self.ended = last, time

    def drop(self):
        """It is over, and no line needs it."""
        self.parts = []

    def time_at(self, offset):
        """The time of the sample with an offset, or None."""
        for first, samples, times in self.parts:
            if first <= offset < first + len(samples):
                return times.split(" ")[offset - first]
        return None

    def edges(self):
        """The edges of DCLK or LOAD: the time, the sample before it, whether DCLK falls, and whether a DOUT was recorded before it."""
        was = IDLE if self.time is None else None
        looking = self.looking
        for _, samples, times in list(self.parts):
            for sample, time in zip(samples, times.split(" ")):
                if was is not None:
                    looking = looking or was >= RECORDED
                    if (sample ^ was) & (DCLK | LOAD):
                        yield time, was, bool(was & ~sample & DCLK), looking
                was = sample
