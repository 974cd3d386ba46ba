"""A recording in which the till's reads are looked for: the last chip's DOUT is always kept."""
import os

from probe.chain import DOUT, ChainWithDout
from probe.options import Wanted
from probe.refusal import BadUsage, shown


class Till(ChainWithDout):
    """The chain's samples with DOUT, and what is to be said of them here."""

    named = False               # whether the user named DOUT

    def hint(self, names):
        """Where no wire is named DOUT, how it is told."""
        names = set(names)
        if self.named or b"DOUT" in names:
            return super().hint(names)
        return super().hint(names) or "; --dout names the last chip's DOUT, and without it nothing is known of what the till read"

    def running(self):
        """The last chip was running before the recording began, for all one knows."""
        if self.chips - 1 not in self.not_reset:
            return []
        return ["chip %d gets no reset word first: taken as reset, with KEYB off, so before a word sets KEYB no read is seen"
                % (self.chips - 1)]


class Wants(Wanted):
    """The options of a recording, and DOUT: by --dout or --dout-bit, or the wire of that name."""

    def __init__(self, given):
        super().__init__(given, Till)
        self.given = given
        self.text.named = "dout" in given

    def goes_with(self, form):
        """Of raw samples the bit must be said."""
        super().goes_with(form)
        if form == "raw" and "dout-bit" not in self.given:
            raise BadUsage("--dout-bit says which bit of raw samples is the last chip's DOUT, and without it nothing is known of what "
                           "the till read")

    def dout(self):
        """What is taken for DOUT, in words."""
        if "dout-bit" in self.given:
            return "DOUT is bit %d" % self.bits[DOUT]
        return "DOUT is %s" % shown(os.fsdecode(self.names[DOUT])) if self.text.named else "DOUT is the wire of that name"
