"""The text or stream of a chain of CH452 chips, on three wires, and what can be seen on the way: no word at all, rows for more chips,
and chips without a reset."""
from .refusal import Refused, joined
from .text import Text

DIN, DCLK, LOAD = 1, 2, 4   # a sample is DIN + 2 DCLK + 4 LOAD
DOUT = 8                    # and 8 times the last chip's DOUT, where that is kept
WITH_DOUT = bytes(0x10 | sample & 15 for sample in range(256))      # such a sample in a stream
MOST_CHIPS = 8
WORD = 12                   # bits
RESET = 0x201
READ_OUT = 7                # clocks of a readout


class Chain(Text):
    """A sample whose DCLK and LOAD are those of the sample before it is left out: without an edge no chip changes, and DIN is looked at
    only where DCLK rises, in that sample itself. It is proved that every chip is the same without such samples, and so is what the LOAD
    rises write: `kept-same` in crates/chain/proofs/Still.antt, `kept-writes` in crates/capture/proofs/Kept.antt."""

    wires = {"din": DIN, "dclk": DCLK, "load": LOAD}
    watched = rising = DCLK | LOAD
    moving = 0
    mark = "01"

    def __init__(self, given):
        """`given` is how many chips there are, or None where the user didn't say."""
        super().__init__()
        self.given = given
        self.chips = given or 1
        self.bits = 0               # the last bits clocked in, the newest highest: chip 0's word, then chip 1's below it
        self.clocks = 0             # DCLK rises since the last LOAD rise
        self.rises = 0              # LOAD rises
        self.between = set()        # how many clocks came before each: before the first, or, where there are more, before the others
        self.mixed = False          # whether these are no rows for one number of chips
        self.waiting = list(range(self.chips))      # chips that had no word yet, but for no-operations
        self.not_reset = []         # chips whose first word wasn't a reset
        self.told = False           # whether that was said
        self.say = None             # in watch: says a line at once

    def first(self):
        """00 01 N."""
        return "0001%02X" % self.chips

    def hint(self, names):
        """The names of a CH450's two wires, which watch doesn't take."""
        option = "import --two-wires" if self.say else "--two-wires"
        return " (a CH450's two wires: %s)" % option if {b"SCL", b"SDA"} <= set(names) else ""

    def edge(self, sample):
        """Clocks in a bit at a DCLK rise, and looks at the words at a LOAD rise."""
        rises = sample & ~self.level
        if rises & DCLK:
            self.bits = self.bits >> 1 | (sample & DIN) << WORD * self.chips - 1
            self.clocks += 1
        if rises & LOAD:
            self.row()
            self.clocks = 0
            for chip in list(self.waiting):
                word = self.bits >> WORD * (self.chips - 1 - chip) & (1 << WORD) - 1
                if word >> 8:
                    self.waiting.remove(chip)
                    if word != RESET:
                        self.not_reset.append(chip)
                    if self.say and not self.waiting:
                        self.told = True
                        for line in self.running():
                            self.say(line)

    def row(self):
        """A LOAD rise ends a row. The clocks before the first count only where there is no other: the recording may begin inside a row.
        In watch rows for more chips are refused at the third."""
        self.rises += 1
        if self.rises == 2:
            self.between, self.mixed = set(), False
        if not self.mixed:
            self.between.add(self.clocks)
            of_chips = len({clocks // WORD for clocks in self.between}) == 1
            self.mixed = not of_chips or bool({clocks % WORD for clocks in self.between} - {0, READ_OUT})
        if self.say and self.rises == 3:
            self.too_many()

    def rows_for(self):
        """For how many chips the rows are: k, where always 12 k clocks come between LOAD rises, or 12 k and a readout's seven; else 0."""
        return 0 if self.mixed or not self.between else next(iter(self.between)) // WORD

    def too_many(self):
        """What is to be said of rows for more chips than are assumed; refused where the user didn't say how many."""
        rows = self.rows_for()
        if rows <= self.chips:
            return []
        why = "always %d clocks come between LOAD rises, as for %d chips" % (WORD * rows, rows)
        if self.given is None:
            most = "; a chain has %d at most" % MOST_CHIPS if rows > MOST_CHIPS else ": say --chips %d" % rows
            raise Refused(why + most + ", or --chips 1 if it is one")
        return ["%s, and not for %d" % (why, self.given)]

    def running(self):
        """What is to be said of chips that were running before the recording began."""
        if not self.not_reset:
            return []
        many = len(self.not_reset) > 1
        which = "chip%s %s" % ("s" * many, joined([str(chip) for chip in sorted(self.not_reset)]))
        return ["%s %s no reset word first: taken as reset, so what %s before the recording isn't on the screen"
                % (which, "get" if many else "gets", "they showed" if many else "it showed")]

    def remarks(self):
        """At the end."""
        lines = []
        if (self.kept or self.count) and not self.rises:
            lines.append("LOAD never rises, so no word is obeyed: are the wires exchanged?")
        return lines + self.too_many() + ([] if self.told else self.running())


class ChainWithDout(Chain):
    """The same with the last chip's DOUT, in a raw stream. A sample at which DOUT alone changes is kept too; to the chips it is one
    without an edge, so they are the same with it."""

    wires = dict(Chain.wires, dout=DOUT)
    watched = Chain.watched | DOUT
    stream = True

    def written(self, samples):
        """10H + 8 DOUT + the sample, each."""
        return samples.translate(WITH_DOUT)
