"""The stored texts of two wires, and what `ch450replay` and `ch450screen` must give for them: worked out by hand, from request C-15 and
source document 003; no program computes it. The script `make` writes them into the folder ch450.
"""
from writer import played, text

# ---- a tiny writer ----

ZEROS = "000000000000"
RISING = "010203040506"     # power-on digits that differ
KEY = 0x63                  # DIG3 with SEG4, pressed: CONFIRM


def first(code, digits):
    """The first line: 40 01, the key code, the power-on digits DIG2 to DIG7."""
    return "4001%02X" % code + digits


def clocks(bits):
    """Clocks with these bits at SDA: 2b, then 2b+1."""
    return [sample for bit in bits for sample in (2 * bit, 2 * bit + 1)]


def byte(value):
    return [value >> place & 1 for place in range(7, -1, -1)]


START, STOP = [1], [0, 1, 3]


def command(byte1, byte2, acknowledge=1):
    """Start, 18 bits, stop: 40 samples."""
    return START + clocks(byte(byte1) + [acknowledge] + byte(byte2) + [acknowledge]) + STOP


def panel(code, digits, samples):
    return text([first(code, digits)] + played(samples, 0x41))


# ---- the small ones: name, text, the commands, the screens ----

TEXTS = {}

# written out: the start, 0 1 0 0 1 0 0 0 and the acknowledge; 0 0 0 0 0 0 0 1, the acknowledge and the stop
TEXTS["sheet"] = (
    text([
        "400100010203040506",
        "41" + "01" + "00010203000100010203000100010001" + "0203",
        "41" + "00010001000100010001000100010203" + "0203" + "000103",
    ]),
    ["424801"],
    ["44010203040506"],
)

TEXTS["letter_e"] = (
    panel(0, ZEROS, command(0x48, 0x01) + command(0x64, 0x79)),
    ["424801", "426479"],
    ["44000000000000", "44790000000000"],
)

# the amount 1049.50, its highest place in DIG7; then DISP and KEYB on, then the key
TEXTS["sale"] = (
    panel(
        KEY, "A55AFF0012FF",
        command(0x64, 0x3F) + command(0x66, 0x6D) + command(0x68, 0xEF)
        + command(0x6A, 0x66) + command(0x6C, 0x3F) + command(0x6E, 0x06)
        + command(0x48, 0x03) + command(0x4F, KEY),
    ),
    ["42643F", "42666D", "4268EF", "426A66", "426C3F", "426E06", "424803", "424F63", "4363"],
    ["44000000000000"] * 6 + ["443F6DEF663F06"] * 2,
)

TEXTS["sleep"] = (
    panel(
        0x23, ZEROS,
        command(0x48, 0x01) + command(0x64, 0x79) + command(0x48, 0x81) + command(0x66, 0x06)
        + command(0x48, 0x81) + command(0x4F, 0x23),
    ),
    ["424801", "426479", "424881", "426606", "424881", "424F23", "4323"],
    ["44000000000000", "44790000000000", "44000000000000", "44790600000000", "44000000000000", "44790600000000"],
)

# the neighbours of every byte 1 that there is
TEXTS["unknown"] = (
    panel(
        KEY, RISING,
        command(0x48, 0x81)
        + command(0x00, 0xFF) + command(0x47, 0x01) + command(0x49, 0x01) + command(0x4E, 0xFF) + command(0x50, 0xFF)
        + command(0x62, 0x79) + command(0x63, 0x79) + command(0x65, 0x79) + command(0x6F, 0x79) + command(0x70, 0x79),
    ),
    ["424881"],
    ["44000000000000"],
)

TEXTS["unknown_digits"] = (
    panel(KEY, RISING, command(0x48, 0x01) + command(0x65, 0x79) + command(0x70, 0x79) + command(0x6E, 0x79)),
    ["424801", "426E79"],
    ["44010203040506", "44010203040579"],
)

# without the second acknowledge; with a clock more
TEXTS["rises_18"] = (
    panel(0, RISING, command(0x48, 0x01) + START + clocks(byte(0x64) + [1] + byte(0x79)) + STOP + command(0x66, 0x06)),
    ["424801", "426606"],
    ["44010203040506", "44010603040506"],
)

TEXTS["rises_20"] = (
    panel(0, RISING, command(0x48, 0x01) + START + clocks(byte(0x64) + [1] + byte(0x79) + [1, 1]) + STOP + command(0x66, 0x06)),
    ["424801", "426606"],
    ["44010203040506", "44010603040506"],
)

# 256 clocks before 64H, 79H: a counter of eight bits would be at 19 again
TEXTS["rises_275"] = (
    panel(0, RISING, command(0x48, 0x01) + START + clocks(256 * [0]) + command(0x64, 0x79)[1:] + command(0x66, 0x06)),
    ["424801", "426606"],
    ["44010203040506", "44010603040506"],
)

# a command but for its stop, SCL low and high with SDA high, and SDA falls: the second command alone counts. Then a start after a
# command's 18 bits, and a stop at once
TEXTS["repeated_start"] = (
    panel(
        0, RISING,
        command(0x48, 0x01) + command(0x64, 0x79)[:-3] + [2, 3] + command(0x66, 0x06)
        + command(0x68, 0x5B)[:-3] + [2, 3] + START + [3],
    ),
    ["424801", "426606"],
    ["44010203040506", "44010603040506"],
)

# SCL and SDA rise together for the stop: the 19th rise, and no stop. SCL and SDA fall together for the start: no start
TEXTS["both_lines"] = (
    panel(
        0, RISING,
        command(0x48, 0x01) + command(0x64, 0x79)[:-2] + [3] + command(0x66, 0x06) + command(0x68, 0x5B)[1:],
    ),
    ["424801", "426606"],
    ["44010203040506", "44010603040506"],
)

# while SCL is low SDA shows the other bit, and moves with every edge of SCL
TEXTS["late_bits"] = (
    panel(
        0, ZEROS,
        command(0x48, 0x01)
        + START + [sample for bit in byte(0x64) + [1] + byte(0x79) + [1] for sample in (2 - 2 * bit, 2 * bit + 1)] + [2, 1, 3],
    ),
    ["424801", "426479"],
    ["44000000000000", "44790000000000"],
)

# clocks between two commands; then a command that a stop cuts after 10 rises, and 9 rises more and a stop
TEXTS["after_stop"] = (
    panel(
        0, RISING,
        command(0x48, 0x01) + clocks([1, 1, 1, 1, 1]) + command(0x66, 0x06)
        + START + clocks(byte(0x64) + [1]) + STOP + clocks(8 * [1]) + STOP,
    ),
    ["424801", "426606"],
    ["44010203040506", "44010603040506"],
)

TEXTS["read_high"] = (
    panel(KEY, ZEROS, command(0x4F, 0xFF) + command(0x4F, 0x00)),
    ["424FFF", "4363", "424F00", "4363"],
    ["44000000000000"] * 2,
)

TEXTS["acknowledges"] = (
    panel(0, ZEROS, command(0x48, 0x01, acknowledge=0) + command(0x64, 0x79, acknowledge=0)),
    ["424801", "426479"],
    ["44000000000000", "44790000000000"],
)

TEXTS["ignored_bits"] = (
    panel(0, RISING, command(0x48, 0x1D) + command(0x48, 0x1C) + command(0x48, 0x61)),
    ["42481D", "42481C", "424861"],
    ["44010203040506", "44000000000000", "44010203040506"],
)

# every sample three times
TEXTS["repeats"] = (
    panel(0, ZEROS, [sample for sample in command(0x48, 0x01) + command(0x64, 0x79) for _ in range(3)]),
    ["424801", "426479"],
    ["44000000000000", "44790000000000"],
)

TEXTS["key_127"] = (panel(127, ZEROS, command(0x4F, 0x7F)), ["424F7F", "437F"], ["44000000000000"])

TEXTS["key_128"] = (panel(128, ZEROS, command(0x4F, 0x7F)), ["1F0A00000001"], ["1F0A00000001"])

TEXTS["seven_digits"] = (panel(0, ZEROS + "00", command(0x48, 0x01)), ["1F0A00000001"], ["1F0A00000001"])

# the stop of 64H, 79H and a sample 4 are in one line, the fifth
TEXTS["sample_4"] = (
    text(
        [first(0, RISING)]
        + played(command(0x48, 0x01), 0x41)
        + played(command(0x64, 0x79) + [4], 0x41)
        + played(command(0x66, 0x06), 0x41)
    ),
    ["424801", "1F0A00000005"],
    ["44010203040506", "1F0A00000005"],
)

TEXTS["bad_last_line"] = (
    panel(0, RISING, command(0x48, 0x01) + command(0x64, 0x79))[:-1],
    ["424801", "1F0A00000004"],
    ["44010203040506", "1F0A00000004"],
)

TEXTS["empty"] = ("", ["1F0A00000001"], ["1F0A00000001"])

# ---- the large ones ----


def longest():
    """65,536 bytes with as many commands as fit: 782, in turn parameters, six digits and a read. A line of k samples takes 2k + 3 bytes,
    so after the first line's 19 there is room for 977 lines of 32 samples, one of 25 and one of 1: 31,290 samples, the last ten idle."""
    samples = []
    for number in range(782):
        place = number % 8
        byte1 = [0x48, 0x64, 0x66, 0x68, 0x6A, 0x6C, 0x6E, 0x4F][place]
        samples += command(byte1, 0x03 if place == 0 else number % 256)
    samples += 10 * [3]
    return text([first(KEY, ZEROS)] + played(samples[:-1], 0x41) + played(samples[-1:], 0x41))
