"""The text of one CH450, on two wires, and what can be seen on the way: no command at all, a display that was on and digits loaded before
the recording, and codes that the reads got."""
from .refusal import Refused, joined
from .text import LONGEST, Text

SCL, SDA = 1, 2             # a sample is SCL + 2 SDA
RISES = 19                  # of SCL, from a start to the stop at which a command is obeyed
PARAMETERS = 0x48           # byte 1
DIGITS = {0x60 + 2 * digit: digit for digit in range(2, 8)}
READ_KEY = 0x4F
SLEEP, DISP = 0x80, 0x01    # bits of parameters
NOT_PULLED = 0xFF           # byte 2 where nobody pulls SDA low: it tells no code
CODE = 0x7F                 # the bits of byte 2 that are a code
MOST_CODES = 8              # in a message


class TwoWires(Text):
    """Only samples that repeat the one before them are left out: a change of SDA alone may be a start or a stop. It is proved that a
    panel is the same without such samples, and so are how often the key is read and what is written: `kept-plays`, `kept-reads` in
    crates/ch450/proofs/Repeats.antt, `kept-writes` in crates/wires/proofs/Repeats.antt."""

    wires = {"scl": SCL, "sda": SDA}
    watched = SCL | SDA
    rising, moving = SCL, SDA
    mark = "41"

    def __init__(self, key, digits):
        """`key` is the code that a read answers, `digits` the six bytes at power-on, DIG2 first, or None where the user didn't say."""
        super().__init__()
        self.key, self.digits = key, digits
        self.running = False        # whether a start came and no stop yet
        self.bits = []              # SDA at SCL's rises since then, 20 at most
        self.obeyed = set()         # the first bytes of the commands obeyed
        self.parameters = 0         # SLEEP among them, which any other command clears
        self.unloaded = None        # the digits that weren't loaded when the display was first on, and the chip awake
        self.codes = []             # those that reads got on the wire and that aren't the key's, each once

    def first(self):
        """40 01, the key's code, and DIG2 to DIG7."""
        return "4001%02X%s" % (self.key, (self.digits or bytes(6)).hex().upper())

    def timed(self, known):
        """Nothing shows times beside what a text of two wires gives: none are kept."""

    def keep(self, sample, place, time, *at):
        """No program takes a text of two wires that is longer."""
        super().keep(sample, place, time, *at)
        if self.length() > LONGEST:
            most = format(LONGEST, ",")
            raise Refused("the recording is too long: the text up to here is over %s bytes, more than one text holds" % most, place(*at))

    def edge(self, sample):
        """Takes a bit at an SCL rise; SDA moving while SCL stays high is a start or a stop."""
        if sample & ~self.level & SCL and self.running and len(self.bits) <= RISES:
            self.bits.append(sample // SDA)
        elif sample & self.level & SCL:
            if self.running and sample & SDA and len(self.bits) == RISES:
                self.obey(*(int("".join(map(str, self.bits[at:at + 8])), 2) for at in (0, 9)))
            self.running = not sample & SDA
            self.bits = []

    def obey(self, command, value):
        """A command; an unknown one is none."""
        if command not in (PARAMETERS, READ_KEY, *DIGITS):
            return
        self.obeyed.add(command)
        self.parameters = value if command == PARAMETERS else self.parameters & ~SLEEP
        if self.parameters & (SLEEP | DISP) == DISP and self.unloaded is None:
            self.unloaded = ["DIG%d" % digit for byte, digit in DIGITS.items() if byte not in self.obeyed]
        if command == READ_KEY and value != NOT_PULLED and value & CODE not in (self.key, *self.codes):
            self.codes.append(value & CODE)

    def remarks(self):
        """A till that was running is taken as one that is switched on; a text has one code for all its reads."""
        lines = []
        if self.kept and not self.obeyed:
            lines.append("no command is obeyed: are SCL and SDA exchanged?")
        elif self.obeyed and PARAMETERS not in self.obeyed:
            lines.append("no command sets the parameters: taken as at power-on, with the display off, so nothing is on the screen")
        elif self.unloaded and self.digits is None:
            many = len(self.unloaded) > 1
            lines.append("%s %s loaded before the display is on: taken as 00, where --digits doesn't say what %s"
                         % (joined(self.unloaded), "aren't" if many else "isn't", "they held" if many else "it held"))
        if self.codes:
            codes = ["%02XH" % code for code in self.codes[:MOST_CODES]] + ["others"] * (len(self.codes) > MOST_CODES)
            lines.append("reads got %s on the wire; the text answers every read with %02XH (--key)" % (joined(codes), self.key))
        return lines
