"""What the lines of `watch` tell of one recording: rows in words, and counts."""
from show import CUT, DIFFERS, INTERRUPT, code_read, is_system

RESET = 0x201
READ = 7            # a read word's high four bits
KEYB = 2
ADDRESS, PRESSED = 0x3F, 0x40

AGAIN = "read again, with no new interrupt: this is how one press becomes two"
RELEASED = "read again, with no new interrupt, and released by now: a till that ignores bit 6 takes it for a second press"
AFTER_CUT = "read again, with no new interrupt seen (one within the readout that was cut isn't on the wires)"
FIRST = "no interrupt was seen before it: the till polls, or the key was pressed before the recording began"
NO_KEY = "no interrupt was seen before it: the till polls, and a chip that has recorded no key gives 00H"
CLEARED = "its interrupt was cleared before the till read it, by KEYB 0"
UNSEEN = "no interrupt was seen since the reset, after which a chip holds 00H: is DOUT the right wire?"
OTHER = "not the code before, and no interrupt was seen since: it was recorded within a readout"
CLIPPED = CUT + " (LOAD rose before its seven bits were clocked out, or DOUT wasn't recorded)"
RUNNING = "; or the keypad was switched on before the recording began"

COUNTS = ("interrupts", "codes", "asked", "again", "other", "cut", "differs", "unseen", "astray")


class Account:
    """One recording. A code that is read uses up the interrupts before it; a readout that was cut doesn't, for it gave no code. Of the last
    chip's words a reset and KEYB 0 clear its interrupt, and a reset its code."""

    def __init__(self):
        self.counts = dict.fromkeys(COUNTS, 0)
        self.waiting = False        # whether an interrupt was seen since the last code, and not cleared
        self.cleared = False        # whether one was that KEYB 0 cleared
        self.cut = False            # whether a readout was cut since the last code
        self.last = None            # the last code, since the start or a reset
        self.keys = False           # whether a key may have been recorded since then
        self.chips = 0              # as far as the lines tell
        self.keyb = None            # the last chip's KEYB, where a reset or system parameters have told it
        self.reset = False          # whether it was reset
        self.reading = False        # whether a read word's code is still to come

    def row(self, line):
        """What a line tells, or None where it tells nothing of the till's reads."""
        kind = line[:2]
        if kind == "10":
            self.word(int(line[2:4], 16), int(line[4:], 16))
        elif kind == "15":
            return self.difference(int(line[2:], 16))
        elif kind == "16":
            return self.code(int(line[4:], 16))
        elif kind == "17":
            self.counts["cut"] += 1
            self.cut, self.reading = True, False
            return CLIPPED
        elif kind == "18":
            self.counts["interrupts"] += 1
            self.waiting = self.keys = True
            return INTERRUPT
        return None

    def difference(self, offset):
        """DOUT isn't the latch. Before any word has told KEYB that says little of the counts."""
        told = self.keyb is not None
        self.counts["differs"] += 1
        self.counts["astray"] += told
        return DIFFERS % offset + ("" if told else RUNNING)

    def code(self, code):
        """A code was read."""
        self.counts["codes"] += 1
        kind, why = self.reason(code)
        self.counts[kind] += 1
        self.keys = self.keys or code != 0
        self.waiting = self.cleared = self.cut = self.reading = False
        self.last = code
        return code_read(code) + ("; " + why if why else "")

    def reason(self, code):
        """What a code counts as, and why."""
        if self.waiting:
            return "asked", None
        if code == 0 and not self.keys:
            return "other", NO_KEY
        if self.last is None:
            return "other", UNSEEN if self.reset else FIRST
        if self.cleared:
            return "other", CLEARED
        if (code ^ self.last) & ADDRESS:
            return "other", OTHER
        if self.cut:
            return "again", AFTER_CUT
        return "again", RELEASED if self.last & ~code & PRESSED else AGAIN

    def word(self, chip, word):
        """A chip obeyed a word; the last chip's is looked at. (In the first row of words each chip is the last so far.)"""
        if chip >= self.chips:
            self.chips, self.keyb, self.counts["unseen"] = chip + 1, None, 0
        if chip < self.chips - 1:
            return
        if word == RESET:
            self.waiting = self.cleared = self.cut = self.keys = self.keyb = False
            self.last, self.reset = None, True
        elif is_system(word):
            self.keyb = bool(word & KEYB)
            if self.waiting and not self.keyb:
                self.waiting, self.cleared = False, True
        elif word >> 8 == READ:
            self.counts["unseen"] += self.keyb is None
            self.reading = bool(self.keyb)

    def tells(self):
        """Whether the lines alone tell that DOUT was looked at with the keypad on, or that the words say it was off."""
        return any(self.counts[name] for name in ("interrupts", "codes", "cut")) or bool(self.counts["differs"] and self.chips)

    def remarks(self, douts):
        """What else is to be said at the end. `douts` are the levels of DOUT that were recorded; none where that isn't known."""
        if len(douts) == 1:
            yield "DOUT never changes: is it the right wire?"
        unseen = self.counts["unseen"]
        if unseen:
            yield "%d read word%s before any word said whether KEYB is on: what %s isn't known" % (
                unseen, "s came" if unseen > 1 else " came", "they read" if unseen > 1 else "it read")
        if self.reading:
            yield "it ends before the code of its last read word was clocked out"
