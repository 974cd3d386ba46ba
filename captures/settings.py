"""The stored settings texts, and what `settext` must give for them: worked out by hand, from request C-16; no program computes it. The script
`make` writes them into the folder settings.
"""
from writer import first, played, row, text

# ---- good texts: the text, which is written again as it is; the words of the four rows, and what they light ----

GOOD = {}


def lit(segments, *chips):
    """The lines of `screen` for a LOAD rise: each chip from 0 up lights these eight bytes."""
    return ["30%02X" % chip + segments for chip in chips]


DARK = "00" * 8
NOUGHTS = "3F" * 8              # eight digits 00H, shown as characters
SEVEN_NOUGHTS = "3F" * 7 + "00"

GOOD["one_chip"] = (
    text(["200101", "210003080000"]),
    [[0x403], [0x580], [0x600], [0x380]],
    lit(DARK, 0) + 3 * lit(NOUGHTS, 0),
)

GOOD["zeros"] = (
    text(["200101", "210000000000"]),
    [[0x400], [0x500], [0x600], [0x380]],
    4 * lit(DARK, 0),
)

# a sale's panel: DISP everywhere, KEYB on the last chip, characters
GOOD["three_chips"] = (
    text(["200103", "210001080000", "210101080000", "210203080000"]),
    [[0x401, 0x401, 0x403], [0x580, 0x580, 0x580], [0x600, 0x600, 0x600], [0x380, 0x380, 0x380]],
    lit(DARK, 0, 1, 2) + 3 * lit(NOUGHTS, 0, 1, 2),
)

# every byte of every chip is another; chips 1, 3 and 7 have characters, 1 and 7 with DISP
GOOD["eight_chips"] = (
    text([
        "200108",
        "210000000102",
        "210101090304",
        "210208020506",
        "2103100B0708",
        "21042004090A",
        "210509050B0C",
        "210611060D0E",
        "2107230F0F10",
    ]),
    [
        [0x400, 0x401, 0x408, 0x410, 0x420, 0x409, 0x411, 0x423],
        [0x500, 0x590, 0x520, 0x5B0, 0x540, 0x550, 0x560, 0x5F0],
        [0x601, 0x603, 0x605, 0x607, 0x609, 0x60B, 0x60D, 0x60F],
        [0x382, 0x384, 0x386, 0x388, 0x38A, 0x38C, 0x38E, 0x390],
    ],
    lit(DARK, 0, 1, 2, 3, 4, 5, 6, 7)
    + 3 * (lit(DARK, 0) + lit("3F" + "00" * 7, 1) + lit(DARK, 2, 3, 4, 5, 6) + lit(SEVEN_NOUGHTS, 7)),
)

# all fields at their largest, but for KEYB before the last chip
GOOD["largest"] = (
    text(
        [
            "200108",
            "2100390FFF7F",
            "2101390FFF7F",
            "2102390FFF7F",
            "2103390FFF7F",
            "2104390FFF7F",
            "2105390FFF7F",
            "2106390FFF7F",
            "21073B0FFF7F",
        ]
    ),
    [7 * [0x439] + [0x43B], 8 * [0x5F0], 8 * [0x6FF], 8 * [0x3FF]],
    lit(DARK, 0, 1, 2, 3, 4, 5, 6, 7) + 3 * lit(SEVEN_NOUGHTS, 0, 1, 2, 3, 4, 5, 6, 7),
)

# ---- KEYB 1 before the last chip: written again as it is, and its rows are refused ----

KEYB_EARLY = {}

KEYB_EARLY["keyb_first"] = (text(["200102", "210002080000", "210103080000"]), "1F0700000000")

KEYB_EARLY["keyb_middle"] = (text(["200103", "210001080000", "210103080000", "210203080000"]), "1F0700000001")

# chips 1 and 2 of five: the lower is named
KEYB_EARLY["keyb_two"] = (
    text(["200105", "210001080000", "210103080000", "210202080000", "210301080000", "210401080000"]),
    "1F0700000001",
)

KEYB_EARLY["keyb_seventh"] = (
    text(["200108"] + ["210%d01080000" % chip for chip in range(6)] + ["21063B0FFF7F", "210701080000"]),
    "1F0700000006",
)

# ---- refused texts: the text, and the line for both ----

REFUSED = {}
CHIPS = ["210001080000", "210101080000", "210203080000"]
HEAD = "200103"

# 14: the first four characters alone
REFUSED["version_02"] = (text(["200203"] + CHIPS), "1F0E00000002")
REFUSED["version_0a"] = (text(["200A03"] + CHIPS), "1F0E0000000A")
REFUSED["version_10"] = (text(["201003"] + CHIPS), "1F0E00000010")
REFUSED["version_ff"] = (text(["20FF03"] + CHIPS), "1F0E000000FF")
REFUSED["version_02_anything"] = (b"2002zz\xff\x00\r\n\n  200101", "1F0E00000002")
REFUSED["version_02_sixteen"] = (text(["200210"] + ["21%02X01080000" % chip for chip in range(16)]), "1F0E00000002")
REFUSED["version_02_alone"] = ("2002", "1F0E00000002")

# what is near it is 15
REFUSED["version_00"] = (text(["200003"] + CHIPS), "1F0F00000001")
REFUSED["version_0a_lower"] = (text(["200a03"] + CHIPS), "1F0F00000001")
REFUSED["version_a0_lower"] = (text(["20a003"] + CHIPS), "1F0F00000001")
REFUSED["version_02_spaced"] = (text([" 200203"] + CHIPS), "1F0F00000001")
REFUSED["version_02_second"] = (text([HEAD, "200203"] + CHIPS), "1F0F00000002")
REFUSED["version_cut"] = ("200", "1F0F00000001")
REFUSED["version_missing"] = ("20", "1F0F00000001")
REFUSED["version_in_two_lines"] = ("20\n02\n", "1F0F00000001")

# the first line
REFUSED["empty"] = ("", "1F0F00000001")
REFUSED["empty_line"] = ("\n", "1F0F00000001")
REFUSED["chips_00"] = (text(["200100"]), "1F0F00000001")
REFUSED["chips_09"] = (text(["200109"] + ["210%d01080000" % chip for chip in range(9)]), "1F0F00000001")
REFUSED["chips_0a"] = (text(["20010A"] + ["21%02X01080000" % chip for chip in range(10)]), "1F0F00000001")
REFUSED["chips_ff"] = (text(["2001FF"] + CHIPS), "1F0F00000001")
REFUSED["first_missing"] = (text(CHIPS), "1F0F00000001")
REFUSED["first_last"] = (text(CHIPS + [HEAD]), "1F0F00000001")
REFUSED["first_long"] = (text([HEAD + "00"] + CHIPS), "1F0F00000001")
REFUSED["first_short"] = (text(["2001"] + CHIPS), "1F0F00000001")
REFUSED["first_no_end"] = (HEAD, "1F0F00000001")
REFUSED["first_of_captures"] = (text(["000103"] + CHIPS), "1F0F00000001")
REFUSED["first_twice"] = (text([HEAD, HEAD] + CHIPS), "1F0F00000002")

# frames missing, repeated, out of order
REFUSED["no_frames"] = (text([HEAD]), "1F0F00000002")
REFUSED["missing_0"] = (text([HEAD, CHIPS[1], CHIPS[2]]), "1F0F00000002")
REFUSED["missing_1"] = (text([HEAD, CHIPS[0], CHIPS[2]]), "1F0F00000003")
REFUSED["missing_2"] = (text([HEAD, CHIPS[0], CHIPS[1]]), "1F0F00000004")
REFUSED["repeated_0"] = (text([HEAD, CHIPS[0], CHIPS[0], CHIPS[1], CHIPS[2]]), "1F0F00000003")
REFUSED["repeated_1"] = (text([HEAD, CHIPS[0], CHIPS[1], CHIPS[1]]), "1F0F00000004")
REFUSED["repeated_2"] = (text([HEAD] + CHIPS + [CHIPS[2]]), "1F0F00000005")
REFUSED["order_0_1"] = (text([HEAD, CHIPS[1], CHIPS[0], CHIPS[2]]), "1F0F00000002")
REFUSED["order_1_2"] = (text([HEAD, CHIPS[0], CHIPS[2], CHIPS[1]]), "1F0F00000003")
REFUSED["another_chip"] = (text([HEAD, CHIPS[0], "210701080000", CHIPS[2]]), "1F0F00000003")
REFUSED["chip_n"] = (text([HEAD, CHIPS[0], CHIPS[1], "210303080000"]), "1F0F00000004")
REFUSED["another_kind"] = (text([HEAD, CHIPS[0], "220101080000", CHIPS[2]]), "1F0F00000003")
REFUSED["extra_chip"] = (text([HEAD] + CHIPS + ["210301080000"]), "1F0F00000005")
REFUSED["extra_empty_line"] = (text([HEAD] + CHIPS + [""]), "1F0F00000005")
REFUSED["extra_digit"] = (text([HEAD] + CHIPS) + "2", "1F0F00000005")
REFUSED["extra_ninth"] = (GOOD["largest"][0] + "210801080000\n", "1F0F0000000A")
REFUSED["empty_between"] = (text([HEAD, CHIPS[0], "", CHIPS[1], CHIPS[2]]), "1F0F00000003")

# malformed lines
REFUSED["no_last_end"] = (text([HEAD] + CHIPS)[:-1], "1F0F00000004")
REFUSED["cut"] = (text([HEAD] + CHIPS)[:-4], "1F0F00000004")
REFUSED["cr_lf"] = ("200103\r\n210001080000\r\n210101080000\r\n210203080000\r\n", "1F0F00000001")
REFUSED["cr_lf_last"] = (text([HEAD, CHIPS[0], CHIPS[1], CHIPS[2] + "\r"]), "1F0F00000004")
REFUSED["space_after"] = (text([HEAD, CHIPS[0], CHIPS[1] + " ", CHIPS[2]]), "1F0F00000003")
REFUSED["spaces_between"] = (text([HEAD, "21 00 01 08 00 00", CHIPS[1], CHIPS[2]]), "1F0F00000002")
REFUSED["lower_case"] = (text([HEAD, CHIPS[0], "21010108000a", CHIPS[2]]), "1F0F00000003")
REFUSED["letter_o"] = (text([HEAD, CHIPS[0], CHIPS[1], "21020308000O"]), "1F0F00000004")
REFUSED["odd_digits"] = (text([HEAD, "21000108000", CHIPS[1], CHIPS[2]]), "1F0F00000002")
REFUSED["short_line"] = (text([HEAD, CHIPS[0], "2101010800", CHIPS[2]]), "1F0F00000003")
REFUSED["long_line"] = (text([HEAD, CHIPS[0], "21010108000000", CHIPS[2]]), "1F0F00000003")
REFUSED["lines_together"] = (text([HEAD, CHIPS[0], CHIPS[1] + CHIPS[2]]), "1F0F00000003")

# a bit outside its field
REFUSED["system_bit_2"] = (text([HEAD, CHIPS[0], CHIPS[1], "210207080000"]), "1F0F00000004")
REFUSED["system_bit_6"] = (text([HEAD, CHIPS[0], "210141080000", CHIPS[2]]), "1F0F00000003")
REFUSED["system_bit_7"] = (text([HEAD, "210081080000", CHIPS[1], CHIPS[2]]), "1F0F00000002")
REFUSED["display_10"] = (text([HEAD, CHIPS[0], CHIPS[1], "210203100000"]), "1F0F00000004")
REFUSED["display_80"] = (text([HEAD, CHIPS[0], "210101800000", CHIPS[2]]), "1F0F00000003")
REFUSED["custom_80"] = (text([HEAD, "210001080080", CHIPS[1], CHIPS[2]]), "1F0F00000002")

# the first of two wrong lines
REFUSED["two_wrong"] = (text([HEAD, CHIPS[0], "210101080080", "21020308000a"]), "1F0F00000003")
REFUSED["wrong_and_missing"] = (text([HEAD, CHIPS[0], "210105080000"]), "1F0F00000003")

# ---- the large ones ----


def large():
    """There is no limit on a text's length: a line, lines after the last, and what comes after a version, of a million bytes."""
    return {
        "very_long_line": (text([HEAD, CHIPS[0], CHIPS[1] + 1000000 * "0", CHIPS[2]]), "1F0F00000003"),
        "very_many_lines": (text([HEAD] + CHIPS + 80000 * [CHIPS[2]]), "1F0F00000005"),
        "very_long_version": ("2002" + 1000000 * "x", "1F0E00000002"),
    }


# ---- the files ----


def files(refused):
    """What is stored of refused texts: the same line for both."""
    stored = {}
    for name, (body, line) in refused.items():
        stored.update({name + ".txt": body, name + ".out": text([line]), name + ".rows": text([line])})
    return stored


def small():
    stored = files(REFUSED)
    for name, (body, words, screens) in GOOD.items():
        samples = [sample for each in words for sample in row(*each)]
        stored[name + ".txt"] = stored[name + ".out"] = body
        stored[name + ".rows"] = text([first(len(words[0]))] + played(samples))
        stored[name + ".words"] = text("10%02X%04X" % (chip, word) for each in words for chip, word in enumerate(each))
        stored[name + ".screen"] = text(screens)
    for name, (body, line) in KEYB_EARLY.items():
        stored[name + ".txt"] = stored[name + ".out"] = body
        stored[name + ".rows"] = text([line])
    return stored
