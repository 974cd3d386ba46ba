"""The text or the stream that a recording's samples make. What differs from one kind of panel to another stands in chain.py and
ch450.py."""
from .refusal import BadUsage, joined

LONGEST = 65536             # bytes of a text that `replay` and `ch450` take
IN_A_LINE = 32              # samples
AT_ONCE = 2048 * IN_A_LINE  # samples that are handed on together, at most

ANY = bytes([0] + [1] * 255)


class Text:
    """Takes samples and keeps those of which a text is made: a sample in which every watched wire is as in the one before it is left
    out. A kind of panel says:

        wires       the wires' options, each with its value in a sample; all wires are high before the first sample
        watched     the wires by which a sample is kept
        rising      the wires whose rises tell something, in VCD before all wires have a level
        moving      those whose falls do too
        mark        how a line of samples begins
        first()     the first line
        edge()      looks at a sample that is kept; `level` still is the one before it
        remarks()   what is to be said of the recording, in lines
        hint()      the end of the message that a wire is missing, if there is more to say

    What is kept is handed on to `out`, a function of the bytes of the text or stream, the samples in them, and their times, or None where
    there are none or they aren't wanted.
    """

    stream = False              # whether it is a raw stream, and no text

    def __init__(self):
        self.level = sum(self.wires.values())
        self.kept = bytearray()         # what isn't handed on yet
        self.times = None               # of these samples
        self.count = 0                  # of those handed on
        self.out = None
        self.wants_times = False
        self.needs_times = None         # the options that need them
        self.watched_alone = bytes(level & self.watched for level in range(256))

    @classmethod
    def options(cls, ending=""):
        """The wires' options, for a message."""
        return joined(["--%s%s" % (name, ending) for name in cls.wires])

    def hint(self, names):
        """What else the recording may be, by the names that it has."""
        return ""

    def timed(self, known):
        """A reader says, before its first sample, whether it knows the times."""
        if not known and self.needs_times:
            raise BadUsage("%s: the recording has no times; of raw samples --rate tells them" % self.needs_times)
        self.times = [] if known and self.wants_times else None

    def take(self, sample, place, time):
        """One sample. `place` and `time` are functions: both are looked for where they are needed."""
        if (sample ^ self.level) & self.watched:
            self.keep(sample, place, time)
        self.level = sample

    def take_all(self, samples, place, time):
        """Many samples, each a byte. `place` and `time` give the place of one in the recording and its time, from its number here."""
        if not samples:
            return
        watched = samples.translate(self.watched_alone)
        before = bytes([self.level & self.watched]) + watched[:-1]
        changes = int.from_bytes(watched, "little") ^ int.from_bytes(before, "little")
        edges = changes.to_bytes(len(samples), "little").translate(ANY)
        at = edges.find(1)
        while at >= 0:
            self.level = samples[at - 1] if at else self.level
            self.keep(samples[at], place, time, at)
            at = edges.find(1, at + 1)
        self.level = samples[-1]

    def keep(self, sample, place, time, *at):
        """A sample with an edge, and its number, where `place` and `time` want one."""
        if self.times is not None:
            self.times.append(time(*at))
        self.kept.append(sample)
        self.edge(sample)
        if len(self.kept) >= AT_ONCE:
            self.hand_on()

    # ---- what is made of them ----

    def begin(self):
        """The text's first line, or the first bytes of the stream."""
        first = self.first()
        self.out(bytes.fromhex(first) if self.stream else first.encode() + b"\n", b"", None)

    def hand_on(self, end=False):
        """What is kept, to `out`: of a text whole lines, but for the last."""
        count = len(self.kept)
        if not self.stream and not end:
            count -= count % IN_A_LINE
        samples = bytes(self.kept[:count])
        del self.kept[:count]
        times = self.times
        if times is not None:
            times, self.times = times[:count], times[count:]
        self.count += count
        if samples:
            self.out(self.written(samples), samples, times)

    def written(self, samples):
        """The bytes of the samples: lines of up to 32, or as they are."""
        if self.stream:
            return samples
        parts = [samples[at:at + IN_A_LINE] for at in range(0, len(samples), IN_A_LINE)]
        return "".join("%s%s\n" % (self.mark, part.hex().upper()) for part in parts).encode()

    def length(self):
        """The bytes of the text up to here."""
        count = self.count + len(self.kept)
        return count * 2 + -(-count // IN_A_LINE) * 3 + len(self.first()) + 1
