"""Used by random_captures: random captures in which a till reads the keys of the last chip, in whole and in part, once and again."""
from random_parts import among, bits, contacts_of, lines_of, odd_samples, random_bits, row, scan, scans, sent

KEYB = 0x402            # system parameters: KEYB
READ_KEY = 0x700


def words(rng, chips, word):
    """A row: a word for the last chip; the others have no keypad, so that what `watch` makes of them doesn't depend on scans."""
    return [rng.choice([0x000, 0x401, 0x201, 0x800 + rng.randrange(0x800)]) for _ in range(chips - 1)] + [word]


def clocked(rng):
    """The clocks after a read word: seven, more, or fewer, and then LOAD rises, in one sample with a fall or after it; or each level stands
    for a while."""
    kind = rng.randrange(8)
    count = 7 if kind < 4 else rng.choice([0, 1, 3, 5, 5, 6, 6, 7, 8, 12])
    samples = bits(random_bits(rng, count))
    if kind == 3:       # a slow clock
        return [sample for sample in samples for _ in range(rng.randrange(1, 4))]
    if kind == 5:       # a fall and LOAD's rise
        return samples + rng.choice([[3, 5], [2, 4], [3, 7, 3, 5]])
    if kind == 6:       # LOAD low in the middle of a clock
        return samples + rng.choice([[3, 7], [5, 1, 5, 7], [1, 7]])
    return samples


def till(rng):
    """The lines of one capture."""
    chips = rng.choice([1, 1, 1, 2, 3, 8])
    last = chips - 1
    key = rng.randrange(64)
    events = row(words(rng, chips, KEYB + rng.randrange(2)))
    for _ in range(rng.choice([1, 3, 6, 12])):
        step = rng.randrange(16)
        press = [scan(last, contacts_of([key]))] * 2
        if step < 3:
            key = rng.randrange(64)
        if step < 7:        # a key, its row and its clocks; at times scans among these, and the readout again
            events += press if rng.random() < 0.9 else []
            for _ in range(rng.choice([1, 1, 1, 2])):
                samples = sent(rng, words(rng, chips, READ_KEY)) + clocked(rng)
                events += among(rng, samples, last, key) if rng.random() < 0.25 else samples
        elif step < 9:
            events += sent(rng, words(rng, chips, rng.choice([READ_KEY, READ_KEY + 0x55]))) + clocked(rng)
        elif step < 11:
            events += [scan(last, contacts_of([]))] * rng.randrange(1, 3)
        elif step < 12:
            events += scans(rng, last, key)
        elif step < 14:     # KEYB off, and on; between them bits come out
            events += sent(rng, words(rng, chips, rng.choice([0x400, 0x401, 0x201])))
            events += bits(random_bits(rng, rng.randrange(30))) + row(words(rng, chips, KEYB))
        elif step < 15:
            events += sent(rng, words(rng, chips, rng.randrange(0x1000)))
        else:
            events += odd_samples(rng)[:rng.randrange(1, 20)] + row(words(rng, chips, KEYB))
    return ["0001%02X" % chips] + lines_of(rng, events)
