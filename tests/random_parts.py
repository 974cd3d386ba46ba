"""Used by random_captures and random_tills: words, samples, lines and scans of which random captures are made."""

# ---- words ----

UNLISTED = [0x200, 0x203, 0x210, 0x2FF, 0x304, 0x310, 0x37F, 0x404, 0x440, 0x4FF, 0x501, 0x58F, 0x5FF]


def system_word(rng, keypad):
    """DISP mostly on; KEYB as asked, mostly."""
    keyb = keypad if rng.random() < 0.9 else not keypad
    return 0x400 + rng.randrange(8) * 8 + 2 * keyb + (rng.random() < 0.85)


def any_word(rng, keypad):
    """One word; every kind comes often enough that the states of the chips get interesting."""
    kind = rng.randrange(40)
    if kind < 12:   # load digit, often a character of the table, with or without the point
        data = rng.choice([rng.randrange(0x20), 0x80 + rng.randrange(0x20), rng.randrange(0x100), 0x1E, 0x9E])
        return 0x800 + rng.randrange(8) * 0x100 + data
    if kind < 16:
        return system_word(rng, keypad)
    if kind < 19:
        return 0x500 + 0x80 * rng.randrange(2) + 0x10 * rng.choice([0, 0, 0, rng.randrange(8)])
    if kind < 22:
        return 0x100 + rng.choice([0, 1, 8, 9, 63, 64, 65, 127, rng.randrange(65), rng.randrange(65, 128)])
    if kind < 25:
        return 0x180 + rng.randrange(0x80)      # segment clear, segment set
    if kind < 29:
        return 0x300 + rng.randrange(4)         # shifts and rotates
    if kind < 31:
        return 0x380 + rng.randrange(0x80)      # custom
    if kind < 32:
        return 0x600 + rng.randrange(0x100)     # blink
    if kind < 34:
        return 0x700 + rng.choice([0, rng.randrange(0x100)])
    if kind < 35:
        return rng.randrange(0x100)             # no operation
    if kind < 36:
        return 0x201
    if kind < 37:
        return 0x202
    if kind < 38:
        return rng.choice(UNLISTED)
    return rng.randrange(0x1000)


# ---- samples ----


def bits(values):
    """Clocks with these bits at DIN: 4+b, then 6+b."""
    return [sample for bit in values for sample in (4 + bit, 6 + bit)]


def word_bits(words):
    """The bits of a row: last chip first, lowest bit first."""
    return [word >> place & 1 for word in reversed(words) for place in range(12)]


def row(words):
    return bits(word_bits(words)) + [3, 7]


def sent(rng, words):
    """A row as the writer has it, or one with several edges in one sample where LOAD moves, or one with samples missing, or one in
    which the wires change one at a time."""
    samples = row(words)
    kind = rng.randrange(10)
    if kind == 0:   # LOAD falls and rises with DCLK, in the word's last clock
        samples[-4:] = [samples[-4] - 4, samples[-3]]
    elif kind == 1:     # LOAD falls as DCLK rises, and rises as it falls
        samples[-3:] = [samples[-3] - 4, 4 + rng.randrange(2)]
    elif kind == 2:     # what a slow probe leaves
        samples = [sample for sample in samples if rng.random() < 0.9] + [3, 7]
    elif kind < 5:
        samples = stepped(rng, samples)
    return samples


def stepped(rng, samples):
    """The same levels reached in small steps: one wire changes at a time, in any order."""
    level, steps = 7, []
    for sample in samples:
        wires = [wire for wire in (1, 2, 4) if (level ^ sample) & wire]
        rng.shuffle(wires)
        for wire in wires:
            level ^= wire
            steps.append(level)
        if not wires or rng.random() < 0.1:
            steps.append(level)
    return steps


def random_bits(rng, count):
    return [rng.randrange(2) for _ in range(count)]


def odd_samples(rng):
    """Samples that no writer makes."""
    kind = rng.randrange(6)
    count = rng.randrange(1, 80)
    if kind == 0:   # any samples
        return [rng.randrange(8) for _ in range(count)]
    if kind == 1:   # one line moves at a time
        sample, samples = 7, []
        for _ in range(count):
            sample ^= rng.choice([1, 2, 2, 2, 4])
            samples.append(sample)
        return samples
    if kind == 2:   # DCLK and LOAD move together
        return [sample for bit in random_bits(rng, count) for sample in (bit, 6 + bit)]
    if kind == 3:   # LOAD rises with DCLK low
        return [sample for bit in random_bits(rng, count) for sample in (6 + bit, 4 + bit)] + [1, 5]
    if kind == 4:   # clocks while LOAD is low, then a rise
        return [sample for bit in random_bits(rng, count) for sample in (bit, 2 + bit)] + [7]
    return [rng.choice([3, 7]) for _ in range(count)]   # LOAD alone


# ---- lines and scans ----


def lines_of(rng, events):
    """Samples as lines, of 32 each or of any lengths; scans are lines already."""
    lines, line = [], []
    full = rng.random() < 0.5
    room = 32
    for event in events + [""]:
        if line and (isinstance(event, str) or len(line) == room):
            lines.append("01" + "".join("%02X" % sample for sample in line))
            line = []
        if isinstance(event, str):
            lines.append(event)
        else:
            room = room if line or full else rng.randrange(1, 33)
            line.append(event)
    return lines[:-1]


def scan(chip, contacts):
    return "02%02X" % chip + "".join("%02X" % byte for byte in contacts)


def contacts_of(addresses):
    contacts = [0] * 8
    for address in addresses:
        contacts[address % 8] |= 1 << address // 8
    return contacts


def scans(rng, chip, key):
    """A few scans of one chip: a press, a bounce, a long press, two keys, a release, or anything."""
    other = rng.randrange(64)
    kind = rng.randrange(7)
    if kind == 0:
        pattern = [[key]] * rng.randrange(1, 4)
    elif kind == 1:     # a bounce of one or two empty scans
        pattern = [[key]] * 2 + [[]] * rng.randrange(1, 3) + [[key]] * 2
    elif kind == 2:
        pattern = [[]] * rng.randrange(1, 4)
    elif kind == 3:
        pattern = [[key, other]] * rng.randrange(1, 4)
    elif kind == 4:     # another key between
        pattern = [[key], [key], [other], [key], [key]]
    elif kind == 5:
        pattern = [[rng.choice([key, other])] for _ in range(rng.randrange(1, 6))]
    else:
        return [scan(chip, [rng.choice([0, rng.randrange(256)]) for _ in range(8)])]
    return [scan(chip, contacts_of(addresses)) for addresses in pattern]


def among(rng, samples, chip, key):
    """The same samples with scans of a chip at some places among them."""
    events = list(samples)
    for _ in range(rng.randrange(1, 4)):
        at = rng.randrange(len(events) + 1)
        events[at:at] = scans(rng, chip, key)
    return events
