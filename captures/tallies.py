"""What `tally` must give for the stored captures, of one or of several together: worked out by hand, from document 01; no program
computes it. The script `make` writes them as *.tally and *.list, and holds the captures.
"""


def counts(chip, recorded, read, overwritten, cleared):
    """A line 13: a chip's four counts, eight bytes each."""
    return "13%02X" % chip + "".join("%016X" % count for count in (recorded, read, overwritten, cleared))


def times(code, tally):
    """A line 14: how many times a code was recorded."""
    return "14%02X%016X" % (code, tally)


# ---- of one capture: name, and its tally ----

TALLIES = {}

TALLIES["reset"] = [counts(0, 0, 0, 0, 0)]

# the first CONFIRM was read, the second is unread at the end: 2 = 1 + 0 + 0 + 1
TALLIES["sale"] = [counts(0, 0, 0, 0, 0), counts(1, 0, 0, 0, 0), counts(2, 2, 1, 0, 0), times(0x63, 2)]

# 40H was overwritten, 41H is unread at the end: 2 = 0 + 1 + 0 + 1
TALLIES["overwritten"] = [counts(0, 2, 0, 1, 0), times(0x40, 1), times(0x41, 1)]

# 40H was read, 41H is unread at the end: 2 = 1 + 0 + 0 + 1
TALLIES["read_between"] = [counts(0, 2, 1, 0, 0), times(0x40, 1), times(0x41, 1)]

# on each chip the first code was overwritten, and the second is unread at the end
TALLIES["two_keypads"] = [
    counts(0, 2, 0, 1, 0), counts(1, 2, 0, 1, 0), times(0x40, 1), times(0x41, 1), times(0x42, 1), times(0x43, 1),
]

# 3 = 1 + 0 + 2 + 0
TALLIES["cleared"] = [counts(0, 3, 1, 0, 2), times(0x40, 2), times(0x41, 1)]

TALLIES["malformed"] = [counts(0, 0, 0, 0, 0), "1F0A00000003"]

TALLIES["half_counted"] = [counts(0, 1, 0, 0, 0), times(0x40, 1), "1F0A00000005"]

# ---- several captures together: name, the captures, and the tally over all of them ----

TOGETHER = {}

# chip 0: 2 and 2 and 3 codes, of which 0 and 0 and 1 were read, 1 and 1 and 0 overwritten, 0 and 0 and 2 cleared, and 1 and 1 and 0
# unread at the ends: 7 = 1 + 2 + 2 + 2; chips 1 and 2 as in two_keypads and sale. 4 + 3 + 1 + 1 + 2 = 7 + 2 + 2
TOGETHER["together"] = (
    ["sale", "overwritten", "two_keypads", "cleared"],
    [counts(0, 7, 1, 2, 2), counts(1, 2, 0, 1, 0), counts(2, 2, 1, 0, 0)]
    + [times(0x40, 4), times(0x41, 3), times(0x42, 1), times(0x43, 1), times(0x63, 2)],
)

# the second is refused at line 5: what its earlier lines counted stands, and the sale, with three chips, isn't read
TOGETHER["cut_short"] = (
    ["read_between", "half_counted", "sale"],
    [counts(0, 3, 1, 0, 0), times(0x40, 2), times(0x41, 1), "1F0A00000005"],
)
