"""The stored streams with the last chip's DOUT, and what `watch` must give for them: worked out by hand, from document 01 and the lines 15
to 18 in the chapter "Streams" of docs/CAPTURES.md; no program computes it. The script `make` writes them into the folder streams.
"""
import sales
from streams import head, raw, raw_scan
from writer import row

KEYB = 0x402            # system parameters: KEYB
READ_KEY = 0x700
RESET = 0x201
IDLE = [7]              # the levels as they are between rows
FALL = [5]              # one clock with DIN high
RISE = [7]
CLOCK = FALL + RISE
LOW_CLOCK = [4, 6]      # one clock with DIN low


def recorded(samples, levels):
    """Samples with DOUT: its level is 0 or 1, or - where it wasn't recorded."""
    assert len(samples) == len(levels)
    return bytes(sample if level == "-" else 0x10 + 8 * int(level) + sample for sample, level in zip(samples, levels))


def dark(lines):
    """The screens of a panel with its display off: where a row is obeyed, each chip is dark; scans light nothing. The lines of DOUT are the
    same."""
    return ["30" + line[2:4] + 8 * "00" if line[:2] == "10" else line for line in lines if line[:2] not in ("11", "12")]


def at(offset):
    """DOUT isn't the latch, from the sample at an offset on."""
    return "15%016X" % offset


def bits(code):
    """K6 to K0."""
    return "{:07b}".format(code)


# one chip. KEYB is off before the row's LOAD rise, and the latch is 0 from the first DCLK fall on: no bit comes through in twelve clocks.
# After it DOUT is high. The 26 samples stand at the offsets 3 to 28
KEYB_ON = head(1) + recorded(row(KEYB), "0" * 25 + "1")
INTERRUPT = recorded(IDLE, "0")


def read_word(before, code):
    """A row of read key: DOUT is high before its LOAD rise, or low where an interrupt stands; after it K6."""
    return recorded(row(READ_KEY), before * 25 + bits(code)[0])


def shown(levels):
    """Each level for the two samples of a clock."""
    return "".join(level * 2 for level in levels)


def read(before, code, after="1"):
    """A read word, and its seven clocks: K5 to K0, and what is shown after."""
    return read_word(before, code) + recorded(7 * CLOCK, shown(bits(code)[1:] + after))


STREAMS = {}            # name: the stream, what `watch` must give; the panel is dark

# a key's interrupt, and its code is read
READ_ONCE = KEYB_ON + INTERRUPT + read("0", 0x63)
STREAMS["read_once"] = (READ_ONCE, ["10000402", "1800", "10000700", "160063"])

# a second read word without a new interrupt
STREAMS["read_twice"] = (
    READ_ONCE + read("1", 0x63),
    ["10000402", "1800", "10000700", "160063", "10000700", "160063"],
)

# the readout's bits K6 to K4 are read, and LOAD rises; the register has 700H, moved down by three. So the next one; the third is read whole
CUT = recorded(3 * LOW_CLOCK + [2, 6], shown("100") + "01")
STREAMS["cut_by_load"] = (
    KEYB_ON + INTERRUPT + read_word("0", 0x63) + CUT + read_word("1", 0x63) + CUT + read("1", 0x63),
    ["10000402", "1800", "10000700", "1700", "100000E0", "10000700", "1700", "100000E0", "10000700", "160063"],
)

# K4 is recorded, but not in the last sample before the third fall; a key's scans come after it. Nothing more is written at the seventh
# fall, nor at LOAD's next rise
LACKING = recorded(7 * CLOCK, "11" + "0-" + shown("0011") + "11")
STREAMS["missing_bit"] = (
    KEYB_ON + INTERRUPT + read_word("0", 0x63) + LACKING[:6] + raw_scan(0, (0, 0)) * 2 + LACKING[6:] + recorded(row(0), "1" * 26),
    ["10000402", "1800", "10000700", "1700", "110040", "10000000"],
)

# no DOUT before the fourth fall of a readout: at its seventh, after a key's scans, it hasn't all its bits; the next one is read whole. So
# where LOAD cuts it
UNSEEN = head(1) + bytes(row(KEYB) + row(READ_KEY))
STREAMS["begun_in_readout"] = (
    UNSEEN + bytes(3 * CLOCK) + recorded(2 * CLOCK, "0011") + raw_scan(0, (0, 0)) * 2 + recorded(2 * CLOCK, "1111") + read("1", 0x63),
    ["10000402", "10000700", "110040", "1700", "10000700", "160063"],
)
STREAMS["begun_and_cut"] = (
    UNSEEN + bytes(2 * LOW_CLOCK) + recorded(LOW_CLOCK + [2, 6], "0001"),
    ["10000402", "10000700", "1700", "100000E0"],
)

# DOUT begins with the read word's LOAD rise, which shows K6, or with one more sample before the first fall: all seven bits are there
FROM_K6 = recorded(RISE + 7 * CLOCK, "1" + shown(bits(0x63)[1:] + "1"))
STREAMS["begun_at_read_word"] = (UNSEEN[:-1] + FROM_K6, ["10000402", "10000700", "160063"])
STREAMS["begun_before_fall"] = (UNSEEN + FROM_K6, ["10000402", "10000700", "160063"])

# the seventh fall in one sample with LOAD's rise, and the sixth; the register has 700H, moved down by six and by five
STREAMS["seventh_with_load"] = (
    KEYB_ON + INTERRUPT + read_word("0", 0x63) + recorded(6 * LOW_CLOCK + [2, 4], shown("100011") + "11"),
    ["10000402", "1800", "10000700", "160063", "1000001C"],
)
STREAMS["sixth_with_load"] = (
    KEYB_ON + INTERRUPT + read_word("0", 0x63) + recorded(5 * LOW_CLOCK + [2, 4], shown("10001") + "11"),
    ["10000402", "1800", "10000700", "1700", "10000038"],
)

# an interrupt comes during a readout: DOUT shows it after the seventh fall, and the next edge sees it
STREAMS["interrupt_in_readout"] = (
    KEYB_ON + INTERRUPT + read("0", 0x63, after="0") + read("0", 0x7F),
    ["10000402", "1800", "10000700", "160063", "1800", "10000700", "16007F"],
)

# low for three edges, high for two, low again, and no read word
STREAMS["interrupt_again"] = (
    KEYB_ON + INTERRUPT + recorded(4 * CLOCK, "00" + "11" + "00" + "00"),
    ["10000402", "1800", "1800"],
)

# a level that wasn't recorded is neither high nor low: low, missing, low; high, missing, low
STREAMS["missing_interrupt"] = (
    KEYB_ON + INTERRUPT + recorded(3 * CLOCK, "-0" + "1-" + "00"),
    ["10000402", "1800", "1800"],
)

# DIN alone moves while DOUT is low: no edge, and DOUT is high again at the next one
STREAMS["din_alone"] = (KEYB_ON + INTERRUPT + recorded([6, 4], "11"), ["10000402"])

# an interrupt is seen, KEYB is switched off and on, and another interrupt comes before an edge has seen DOUT high: low it was when it was
# last looked at so. While KEYB is off, the bits of 400H come out
STREAMS["keyb_off_and_on"] = (
    KEYB_ON + INTERRUPT + recorded(row(0x400), "0" * 26) + recorded(row(KEYB), shown("000000000010") + "01") + INTERRUPT
    + recorded(CLOCK, "00"),
    ["10000402", "1800", "10000400", "10000402"],
)

# the probe's DOUT is on DIN, which is high in the samples 0, 1, 18, 19, 24 and 25 of the row; in the next row it is right, and the bits of
# 201H come out. KEYB is off
STREAMS["wrong_pin"] = (
    head(1) + recorded(row(RESET), [str(sample & 1) for sample in row(RESET)]) + recorded(row(0), shown("100000000100") + "00"),
    [at(3), at(3 + 18), at(3 + 24), "10000201", "10000000"],
)

# the latch is 0, and DOUT high, missing, high, high, low, high
STREAMS["missing_latch"] = (head(1) + recorded(3 * LOW_CLOCK + [4], "1-" + "11" + "01" + "0"), [at(3), at(8)])

# DOUT isn't the latch, 0, before KEYB is on, nor after it is off again: it didn't agree between. Then it is low for a sample
STREAMS["wrong_again"] = (
    head(1) + recorded(row(KEYB), "1" * 26) + recorded(row(0x400), "1" * 26) + recorded(LOW_CLOCK + [4], "010"),
    [at(3), "10000402", "10000400", at(3 + 2 * 26 + 1)],
)

# the offset is that of the sample whose DOUT it is: with a scan after it, and with one before it
STREAMS["offset_with_scan"] = (
    head(1) + recorded(LOW_CLOCK, "01") + raw_scan(0, (3, 4)) + recorded(LOW_CLOCK + [4], "010"),
    [at(4), at(15)],
)

# the code of a chip that never recorded a key; one that isn't the same from its end; the largest
STREAMS["codes"] = (
    KEYB_ON + read("1", 0x00) + INTERRUPT + read("0", 0x4C) + INTERRUPT + read("0", 0x7F),
    ["10000402", "10000700", "160000", "1800", "10000700", "16004C", "1800", "10000700", "16007F"],
)

# DOUT follows a sample later: each sample stands twice, and the first time with the DOUT of before
LEVELS = [byte >> 3 & 1 for byte in READ_ONCE[3:]]
STREAMS["lagging"] = (
    head(1) + recorded([byte & 7 for byte in READ_ONCE[3:] for _ in "12"], "1" + shown("%d" % level for level in LEVELS)[:-1]),
    ["10000402", "1800", "10000700", "160063"],
)

# with the scans: the key of code 63H, and during its readout that of 7FH
BITS = recorded(7 * CLOCK, shown(bits(0x63)[1:] + "0"))
STREAMS["scans_and_reads"] = (
    KEYB_ON + raw_scan(0, (3, 4)) * 2 + INTERRUPT + read_word("0", 0x63) + BITS[:6] + raw_scan(0, (7, 7)) * 2 + BITS[6:] + read("0", 0x7F),
    ["10000402", "110063", "1800", "10000700", "11007F", "160063", "1800", "10000700", "16007F"],
)

RAW = {name: (stream, lines, dark(lines)) for name, (stream, lines) in STREAMS.items()}


def inserted(lines, *added):
    """Lines with others before some: each as the place and the lines, the last place first."""
    lines = list(lines)
    for place, more in added:
        lines[place:place] = more
    return lines


# the sale with chip 2's DOUT. The interrupt stands from the second scan on, after the four rows: the read word's row is the first to see it.
# The seven clocks come before the last scans
RAW["sale_dout"] = (
    head(3) + raw(sales.LINES, sales.DOUT),
    inserted(sales.WORDS, (16, ["160263"]), (13, ["1802"])),
    inserted(sales.SCREENS, (15, ["160263"]), (12, ["1802"])),
)

# as a probe records it, without the scans: after those that change DOUT a sample with the levels as they are. This is what with_dout makes of
# the capture
PROBED = raw([line for line in sales.LINES if line[:2] == "01"], sales.DOUT)
RAW["sale_probed"] = (
    head(3) + PROBED[:4 * 74] + INTERRUPT + PROBED[4 * 74:] + INTERRUPT,
    sales.WORDS[:12] + ["1802"] + sales.WORDS[13:16] + ["160263"],
    inserted(sales.SCREENS, (15, ["160263"]), (12, ["1802"])),
)

# the sale with the contrary of each DOUT. Before KEYB is on it isn't the latch, from the first sample on. Then it is low, as if an interrupt
# stood; from the real interrupt on it is high; the code is the contrary of 63H; after the seventh fall it is low again
RAW["sale_contrary"] = (
    head(3) + raw(sales.LINES, [1 - level for level in sales.DOUT]),
    inserted(sales.WORDS, (16, ["16021C", "1802"]), (3, ["1802"]), (0, [at(3)])),
    inserted(sales.SCREENS, (15, ["16021C", "1802"]), (3, ["1802"]), (0, [at(3)])),
)

# both kinds of samples in one row, in turn as 00H, 10H and 18H + sample. The latch is 0: after a level 0 each 1 is the first that differs,
# and the level after it is missing
RAW["both_kinds"] = (
    head(1) + b"".join(bytes([(0x00, 0x10, 0x18)[place % 3] + sample]) for place, sample in enumerate(row(KEYB))),
    [at(3 + place) for place in range(2, 24, 3)] + ["10000402"],
    [at(3 + place) for place in range(2, 24, 3)] + ["30000000000000000000"],
)
