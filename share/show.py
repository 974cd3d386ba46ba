#!/usr/bin/env python3
"""Shows people what the proved programs wrote. This is presentation: nothing here is proved.

    show.py PROGRAM HOW REFUSED

    replay explain         each line of `replay`, with its meaning in words beside it
    screen picture         each line of `screen`, with the chip's digits drawn below it
    screen explain         each line of `screen`, with the segments that are lit
    tally explain          what the lines of `tally` say, in two tables with decimal numbers
    ch450replay explain    each line of `ch450replay`, with its meaning in words beside it
    ch450screen explain    each line of `ch450screen`, with the segments that are lit
    ch450screen picture    each line of `ch450screen`, with the digits drawn below it
    settext explain        each line of `settext`, with each chip's settings in words beside and below it

The lines come on standard input. REFUSED is what to say of a refusal line. (`watch`, whose lines are those of `replay` and `screen` and
those about DOUT, and times beside lines are shown by watch.py, by the same functions.)
"""
import signal
import struct
import sys

# ---- --explain of replay ----


def bits(word, *names):
    """The named bits of a word and their values; the last name is bit 0. A None stands for a bit without a name."""
    named = zip(names, reversed(range(len(names))))
    return ", ".join("%s %d" % (name, word >> place & 1) for name, place in named if name)


def place_of(address):
    """The digit and the segment of an address, which is 8 SEG + DIG."""
    return "DIG%d, SEG%d" % (address % 8, address // 8)


def is_system(word):
    """Whether a word is one of system parameters: 010000 INTM SSPD DPLR 0 KEYB DISP."""
    return 0x400 <= word < 0x440 and not word & 4


def meaning(word):
    """What a 12-bit word commands: document 01's table, row by row; what no row has is unlisted."""
    low = word & 0xFF
    if word < 0x100:
        return "no operation"
    if word < 0x180:
        return "bar level %d" % low + (" (all 64 segments)" if low >= 64 else "")
    if word < 0x1C0:
        return "clear segment %02XH (%s)" % (word - 0x180, place_of(word - 0x180))
    if word < 0x200:
        return "set segment %02XH (%s)" % (word - 0x1C0, place_of(word - 0x1C0))
    if word in WHOLE:
        return WHOLE[word]
    if 0x380 <= word < 0x400:
        return "custom character %02XH" % (word - 0x380)
    if is_system(word):
        return "system parameters: " + bits(word, "INTM", "SSPD", "DPLR", None, "KEYB", "DISP")
    if 0x500 <= word < 0x600 and not word & 15:
        mode, limit = word >> 7 & 1, word >> 4 & 7
        return "display parameters: MODE %d (%s), LIMIT %d (%s)" % (
            mode, "BCD" if mode else "segments", limit, "1 digit" if limit == 1 else "%d digits" % (limit or 8))
    if 0x600 <= word < 0x700:
        digits = ["DIG%d" % digit for digit in range(8) if low >> digit & 1]
        return "blink byte %02XH (%s)" % (low, ", ".join(digits) or "no digit")
    if 0x700 <= word < 0x800:
        return "read key"
    if word >= 0x800:
        return "load DIG%d with %02XH" % (word >> 8 & 7, low)
    return "unlisted word %03XH, which only wakes the chip and ends a readout" % word


# the commands that are one word each
WHOLE = {
    0x201: "reset",
    0x202: "sleep",
    0x300: "shift left",
    0x301: "rotate left",
    0x302: "shift right",
    0x303: "rotate right",
}


def key_of(code):
    """The key of a code, which is 40H + its address."""
    return "key %02XH (%s)" % (code - 0x40, place_of(code - 0x40))


def code_read(code):
    """What a code that was read says: its low six bits are the key's address, bit 6 whether it is pressed."""
    return "code %02XH read: key %02XH (%s) %s" % (code, code & 0x3F, place_of(code & 0x3F), "pressed" if code & 0x40 else "released")


DIFFERS = "DOUT isn't the latch at byte offset %d: the model and the panel disagree, or a wire is on the wrong pin"
CUT = "readout cut: the till got no whole code"
INTERRUPT = "interrupt seen"


def looked(line, refused):
    """The meaning of a line of `watch` about DOUT, 15 to 18, or of a refusal."""
    frame = bytes.fromhex(line)
    if frame[0] == 0x15:
        return DIFFERS % int(line[2:], 16)
    if frame[0] in (0x16, 0x17, 0x18):
        return "chip %d: %s" % (frame[1], code_read(frame[2]) if frame[0] == 0x16 else CUT if frame[0] == 0x17 else INTERRUPT)
    return refused(line)


# what is on where a chip is put to sleep, by KEYB and DISP, the low two bits of its last system word
STILL_ON = ("", "its display is", "its keypad is", "its display and its keypad are")


def explained(lines, refused):
    """The lines of `replay` and their meanings. What is lost where a code is recorded over an unread one is the code that the same chip
    recorded last (theorem `lost-is-last`): an interrupt stands from a record on, until it is read or cleared. Where a chip is put to
    sleep with its display or its keypad on, by its own reset and system words since the start, that is said."""
    last_code = {}
    still_on = {}
    for line in lines:
        frame = bytes.fromhex(line)
        if frame[0] == 0x10:
            chip, word = frame[1], frame[2] << 8 | frame[3]
            text = "chip %d: %s" % (chip, meaning(word))
            if word == 0x201:
                still_on[chip] = 0
            elif is_system(word):
                still_on[chip] = word & 3
            elif word == 0x202 and still_on.get(chip):
                text += ", and %s still on; the writer refuses such a word (refusal 13)" % STILL_ON[still_on[chip]]
        elif frame[0] in (0x11, 0x12):
            chip, code = frame[1], frame[2]
            text = "chip %d: %s recorded, code %02XH" % (chip, key_of(code), code)
            if frame[0] == 0x12:
                text += "; the unread code %02XH of %s is lost" % (last_code[chip], key_of(last_code[chip]))
            last_code[chip] = code
        else:
            text = looked(line, refused)
        yield "%-8s    %s" % (line, text)


# ---- what is lit ----


def lit(digits, first):
    """The segments that are lit, by their letters, a dot for the point; digits that are dark are left out."""
    letters = ["".join(name for bit, name in enumerate("ABCDEFG.") if byte >> bit & 1) for byte in digits]
    return ", ".join("DIG%d %s" % (digit, names) for digit, names in enumerate(letters, first) if names) or "dark"


def screen_explained(lines, refused):
    """The lines of `screen` and their meanings."""
    for line in lines:
        frame = bytes.fromhex(line)
        yield "%s    %s" % (line, "chip %d: %s" % (frame[1], lit(frame[2:], 0)) if frame[0] == 0x30 else looked(line, refused))


# ---- --explain of ch450 ----

INTENSITIES = ("duty 4/4", "duty 1/4", "duty 2/4", "duty 4/4, no current limit")


def ch450_meaning(first, second):
    """What the two bytes of an obeyed command say, by sheet 003; bits 4 to 2 of parameters are ignored."""
    if first == 0x48:
        intens = second >> 5 & 3
        rest = bits(second & 3, "KEYB", "DISP")
        return "system parameters: SLEEP %d, INTENS %d (%s), %s" % (second >> 7, intens, INTENSITIES[intens], rest)
    if first == 0x4F:
        return "read key (byte 2 on the wire: %02XH)" % second
    return "load DIG%d with %02XH" % (first >> 1 & 7, second)


def ch450_key(code):
    """What a code that was read says: its low six bits are the key's address, bit 6 whether it is pressed. There is no DIG0 or DIG1."""
    address = code & 0x3F
    state = "pressed" if code & 0x40 else "let go"
    if address % 8 < 2:
        return "code %02XH read: %s, and no key is at %s" % (code, state, place_of(address))
    return "code %02XH read: key %02XH (%s) %s" % (code, address, place_of(address), state)


def ch450_explained(lines, refused):
    """The lines of `ch450replay` or `ch450screen` and their meanings."""
    for line in lines:
        frame = bytes.fromhex(line)
        if frame[0] == 0x42:
            text = ch450_meaning(frame[1], frame[2])
        elif frame[0] == 0x43:
            text = ch450_key(frame[1])
        elif frame[0] == 0x44:
            text = lit(frame[1:], 2)
        else:
            text = refused(line)
        yield "%-8s    %s" % (line, text)


# ---- --explain of tally ----


# the tables' heads and forms: a chip's counts stand as a sum
CHIPS = ("chip", "recorded", "read", "overwritten", "cleared", "left unread"), "%s  %s = %s + %s + %s + %s"
CODES = ("code", "key", "DIG", "SEG", "recorded"), "%s  %s  %s  %s  %s"


def table(head, form, rows):
    """Rows of words and numbers below their head, each column as wide as it must be."""
    cells = [head] + [[str(cell) for cell in row] for row in rows]
    widths = [max(map(len, column)) for column in zip(*cells)]
    return [form % tuple(cell.rjust(width) for cell, width in zip(row, widths)) for row in cells]


def chip_row(chip, recorded, read, overwritten, cleared):
    """A chip's counts; what is left were unread where a capture ended or was refused (theorem `text-balance`, added up)."""
    return chip, recorded, read, overwritten, cleared, recorded - read - overwritten - cleared


def code_row(code, recorded):
    """A code, which is 40H + its key's address, 8 SEG + DIG."""
    address = code - 0x40
    return "%02XH" % code, "%02XH" % address, address % 8, address // 8, recorded


def counted(lines, refused):
    """What the lines of `tally` say."""
    frames = [bytes.fromhex(line) for line in lines]
    chips = [chip_row(frame[1], *struct.unpack(">4Q", frame[2:])) for frame in frames if frame[0] == 0x13]
    codes = [code_row(frame[1], *struct.unpack(">Q", frame[2:])) for frame in frames if frame[0] == 0x14]
    last = refused(None)
    if chips:
        yield from table(*CHIPS, chips)
        yield "left unread: stood unread where a capture ended" + (", or before the refused line" if last else "")
    if codes:
        yield ""
        yield from table(*CODES, codes)
    if last:
        yield from [""] * bool(chips) + [last]


# ---- --explain of settings ----

EARLY_KEYPAD = "KEYB is 1 and this chip isn't the last: the writer refuses the rows of these settings (refusal 7)"


def chip_words(system, display, blink, custom):
    """The words that set a chip to the four bytes of its line, in the order of the rows."""
    return 0x400 | system, 0x500 | display << 4, 0x600 | blink, 0x380 | custom


def settings_explained(lines, refused):
    """The lines of `settext` and their meanings: a chip's settings are told as the words that set them are, each in a line of its own."""
    chips = 0
    for line in lines:
        frame = bytes.fromhex(line)
        if frame[0] == 0x20:
            chips = frame[2]
            head, told = "", ["version %02X, %s" % (frame[1], "1 chip" if chips == 1 else "%d chips" % chips)]
        elif frame[0] == 0x21:
            chip, system = frame[1], frame[2]
            head, told = "chip %d: " % chip, [meaning(word) for word in chip_words(*frame[2:])]
            if system & 2 and chip + 1 < chips:
                told.append(EARLY_KEYPAD)
        else:
            head, told = "", [refused(line)]
        margin = "%-12s    %s" % (line, head)
        for text in told:
            yield margin + text
            margin = " " * len(margin)


# ---- --picture ----

# the segments of a digit as they stand: A above, F and B beside G, E and C beside D, and the point; segment A is bit 0
ROWS = (
    ((None, " "), (0, "_"), (None, " "), (None, " ")),
    ((5, "|"), (6, "_"), (1, "|"), (None, " ")),
    ((4, "|"), (3, "_"), (2, "|"), (7, ".")),
)
MARGIN = "    "
GAP = " "


def drawn_row(row, segments):
    """One of the three rows of a digit, four columns wide."""
    return "".join(mark if bit is None or segments >> bit & 1 else " " for bit, mark in row)


# each of the three rows, for every byte of segments
CELLS = [[drawn_row(row, segments) for segments in range(256)] for row in ROWS]


def drawn(lines, refused):
    """The lines of `screen` or `ch450screen`, and below each the digits, DIG7 leftmost: the eight of its chip, or the six of a CH450,
    which has no DIG0 and DIG1."""
    for line in lines:
        frame = bytes.fromhex(line)
        if frame[0] == 0x30:
            yield "%s    chip %d" % (line, frame[1])
            digits = list(enumerate(frame[2:]))[::-1]
        elif frame[0] == 0x44:
            yield line
            digits = list(enumerate(frame[1:], 2))[::-1]
        else:
            yield "%s    %s" % (line, looked(line, refused))
            continue
        for row in CELLS:
            yield (MARGIN + GAP.join([row[segments] for _, segments in digits])).rstrip()
        yield MARGIN + GAP.join(["DIG%d" % digit for digit, _ in digits])
        yield ""


SHOWN = {
    ("replay", "explain"): explained,
    ("screen", "picture"): drawn,
    ("screen", "explain"): screen_explained,
    ("tally", "explain"): counted,
    ("ch450replay", "explain"): ch450_explained,
    ("ch450screen", "explain"): ch450_explained,
    ("ch450screen", "picture"): drawn,
    ("settext", "explain"): settings_explained,
}


def main():
    signal.signal(signal.SIGPIPE, signal.SIG_DFL)
    lines = list(SHOWN[sys.argv[1], sys.argv[2]](sys.stdin.read().split(), lambda line: sys.argv[3]))
    try:
        sys.stdout.write("".join(line + "\n" for line in lines))
        sys.stdout.close()
    except OSError as error:
        sys.exit("zhaqsumir: the output can't be written: %s" % error.strerror)


if __name__ == "__main__":
    main()
