"""Captures of chips that are put to sleep, with their display and keypad off (C-17) and on, and what they must give, by hand."""
from writer import digit, first, played, row, text


def lit(chip, segments=0):
    """The line of `screen` for a chip that lights DIG0 so, and nothing else."""
    return "30%02X%02X" % (chip, segments) + "00" * 7


# two chips show 1 and 2; both are switched off, put to sleep and woken by a row of no operations, and stay dark
PUT_TO_SLEEP = (
    text(
        [first(2)]
        + played(row(0x401, 0x403))
        + played(row(digit(0, 0x06), digit(0, 0x5B)))
        + played(row(0x400, 0x400))
        + played(row(0x202, 0x202))
        + played(row(0x000, 0x000))
    ),
    ["10000401", "10010403", "10000806", "1001085B", "10000400", "10010400", "10000202", "10010202", "10000000", "10010000"],
    [lit(0), lit(1), lit(0, 0x06), lit(1, 0x5B), lit(0), lit(1), lit(0), lit(1), lit(0), lit(1)],
)

# the same, but chip 0 sleeps with its display on: the row that wakes it makes it show 1 again
SLEPT_LIT = (
    text(
        [first(2)]
        + played(row(0x401, 0x403))
        + played(row(digit(0, 0x06), digit(0, 0x5B)))
        + played(row(0x000, 0x400))
        + played(row(0x202, 0x202))
        + played(row(0x000, 0x000))
    ),
    ["10000401", "10010403", "10000806", "1001085B", "10000000", "10010400", "10000202", "10010202", "10000000", "10010000"],
    [lit(0), lit(1), lit(0, 0x06), lit(1, 0x5B), lit(0, 0x06), lit(1), lit(0), lit(1), lit(0, 0x06), lit(1)],
)

# one chip: a reset switches display and keypad off before sleep; then the keypad alone is on
SLEPT_AFTER_RESET = (
    text([first(1)] + [line for word in (0x403, 0x201, 0x202, 0x402, 0x202) for line in played(row(word))]),
    ["10000403", "10000201", "10000202", "10000402", "10000202"],
    [lit(0)] * 5,
)

SLEEPING = {"put_to_sleep": PUT_TO_SLEEP, "slept_lit": SLEPT_LIT, "slept_after_reset": SLEPT_AFTER_RESET}
