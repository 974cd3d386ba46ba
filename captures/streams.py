"""The stored streams, and what `watch` must give for them: worked out by hand, from document 01 and the chapter "Streams" of
docs/CAPTURES.md; no program computes it. Those with DOUT are in reads.py. The script `make` writes them into the folder streams, and the
large ones where it is told.
"""
import sales
from writer import digit, first, played, row, scan, text

# ---- raw streams ----


def head(chips):
    """00 01 N."""
    return bytes([0, 1, chips])


def raw_scan(chip, *keys):
    """80H + k, and the eight bytes of the scan."""
    return bytes([0x80 + chip]) + bytes.fromhex(scan(chip, *keys)[4:])


def raw(lines, dout=None):
    """The lines of a capture, but for the first, as they stand in a raw stream; with the DOUT of each sample, where there is one."""
    items, levels = b"", iter(dout or [])
    for frame in map(bytes.fromhex, lines):
        if frame[0] == 1:
            items += bytes(sample if dout is None else 0x10 + 8 * next(levels) + sample for sample in frame[1:])
        else:
            items += bytes([0x80 + frame[1]]) + frame[2:]
    return items


def at(offset):
    """A refusal at a byte."""
    return "1F0A%016X" % offset


KEYB = 0x402            # system parameters: KEYB
DARK = "30000000000000000000"
ROW = bytes(row(KEYB))  # one chip: 24 * 1 + 2 = 26 samples, so that the byte after the first row is at 3 + 26 = 29
AFTER_ROW = 29

# ---- the small ones: name, the stream, what `watch` must give, what `watch screen` must give ----

RAW = {}

RAW["sale"] = (head(3) + raw(sales.LINES), sales.WORDS, sales.SCREENS)

# a chip is put to sleep with its display on, and a key wakes it: the scan writes a screen, and no word
RAW["woken_by_key"] = (
    head(1) + bytes(row(0x401) + row(digit(0, 0x06)) + row(0x202)) + raw_scan(0, (0, 0)),
    ["10000401", "10000806", "10000202"],
    [DARK, "30000600000000000000", DARK, "30000600000000000000"],
)

# bytes that couldn't stand alone may stand in a scan: DIG0 to DIG7 have 08H, 20H, 7FH, 81H, FFH, 0FH, 0AH, 00H. The smallest address is
# that of DIG2 with SEG0, 02H
SCANNED = bytes.fromhex("80" + "08207F81FF0F0A00")
RAW["scan_bytes"] = (
    head(1) + ROW + SCANNED + SCANNED + bytes(row(0x700)),
    ["10000402", "110042", "10000700"],
    [DARK, DARK],
)

# two scans with a row begun between them, and a scan between the two samples of a LOAD rise
RAW["scan_in_row"] = (
    head(1) + ROW + raw_scan(0, (3, 4)) + bytes(row(0x700)[:-1]) + raw_scan(0, (3, 4)) + b"\x07",
    ["10000402", "110063", "10000700"],
    [DARK, DARK],
)

# no item at all is a whole stream, and gives nothing
RAW["head_alone"] = (head(8), [], [])

# bytes that can't stand: what came before stands, and nothing after is played
for byte in 0x08, 0x0A, 0x0F, 0x20, 0x7F, 0x81, 0xFF:
    RAW["byte_%02X" % byte] = (
        head(1) + ROW + bytes([byte]) + ROW,
        ["10000402", at(AFTER_ROW)],
        [DARK, at(AFTER_ROW)],
    )
RAW["byte_88"] = (head(8) + b"\x88" + bytes(8), [at(3)], [at(3)])

# ends inside a scan: after its first byte, and with one byte missing; the refusal is at the missing byte, and the scan isn't taken. Were
# the second taken, it would record 63H
RAW["scan_begun"] = (head(1) + ROW + b"\x80", ["10000402", at(30)], [DARK, at(30)])
RAW["scan_cut"] = (
    head(1) + ROW + raw_scan(0, (3, 4)) + raw_scan(0, (3, 4))[:-1],
    ["10000402", at(AFTER_ROW + 9 + 8)],
    [DARK, at(AFTER_ROW + 9 + 8)],
)

# the head: its end missing, or a byte of it wrong
RAW["head_1"] = (b"\x00", [at(1)], [at(1)])
RAW["head_2"] = (b"\x00\x01", [at(2)], [at(2)])
RAW["second_byte"] = (b"\x00\x02\x01" + ROW, [at(1)], [at(1)])
RAW["second_byte_alone"] = (b"\x00\x00", [at(1)], [at(1)])
RAW["no_chips"] = (head(0) + ROW, [at(2)], [at(2)])
RAW["nine_chips"] = (head(9) + ROW, [at(2)], [at(2)])

# samples without a head: the first byte isn't 00H, so it is a text, and its first line isn't of the form
RAW["no_head"] = (b"\x07" + ROW, ["1F0A00000001"], ["1F0A00000001"])

TEXTS = {}

# a line without an end that is longer than two reads
TEXTS["endless_line"] = (
    text([first(1)] + played(row(KEYB))) + "01" + "07" * 5000,
    ["10000402", "1F0A00000003"],
    [DARK, "1F0A00000003"],
)

# ---- the large ones ----

SALES = 60              # 60 * (963 + 157) + 7 = 67,207 bytes
LINES = 70000           # more than two bytes can count
LATE = 100000           # so for the bytes of a raw stream


def numbers():
    """Numbers below 2^15, by a fixed rule."""
    seed = 1
    while True:
        seed = (seed * 1103515245 + 12345) % 2 ** 31
        yield seed >> 16


def long_lines():
    """8 chips with all that chips do: 900 rows of any words, a scan after every third of them, now and then a sample more; lines of 1 to
    32 samples, so that reads cut them anywhere."""
    some = numbers()
    lines = []
    for place in range(900):
        samples = row(*(next(some) % 4096 for _ in range(8))) + [next(some) % 8] * (next(some) % 4 == 0)
        while samples:
            count = 1 + next(some) % 32
            lines += played(samples[:count])
            samples = samples[count:]
        if place % 3 == 0:
            keys = [(next(some) % 8, next(some) % 8) for _ in range(next(some) % 3)]
            lines += [scan(place // 3 % 8, *keys)] * (1 + next(some) % 3)
    return lines


def large():
    """Name and content of the files; of long.txt and long.raw, which are the same recording, the sums are stored."""
    lines = long_lines()
    idle = text([first(1)] + ["0107"] * (LINES - 1))
    return {
        "sales.txt": text([first(3)] + (sales.LINES + sales.RESETS) * SALES),
        "sales.out": text((sales.WORDS + sales.RESET_WORDS) * SALES),
        "sales.screen": text((sales.SCREENS + sales.RESET_SCREENS) * SALES),
        "sales.raw": head(3) + raw(sales.LINES + sales.RESETS) * SALES,
        "late_line.txt": idle + "0108\n",
        "late_line.out": text(["1F0A%08X" % (LINES + 1)]),
        "late_line.screen": text(["1F0A%08X" % (LINES + 1)]),
        "late_byte.raw": head(1) + b"\x07" * LATE + b"\x08",
        "late_byte.out": text([at(3 + LATE)]),
        "late_byte.screen": text([at(3 + LATE)]),
        # with DOUT: low as the latch, then high in the sample after
        "late_dout.raw": head(1) + b"\x14" * LATE + b"\x1E\x14",
        "late_dout.out": text(["15%016X" % (3 + LATE)]),
        "late_dout.screen": text(["15%016X" % (3 + LATE)]),
        "long.txt": text([first(8)] + lines),
        "long.raw": head(8) + raw(lines),
    }
