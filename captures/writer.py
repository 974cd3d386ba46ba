"""A tiny writer of capture texts, from document 01: rows of words, key scans and their lines."""


def first(chips):
    """The first line: 00 01 N."""
    return "0001%02X" % chips


def row(*words):
    """The samples of a row: the last chip's word first, each word's lowest bit first, a bit b as 4+b and 6+b, at the end 3, 7."""
    samples = []
    for word in reversed(words):
        for place in range(12):
            bit = word >> place & 1
            samples += [4 + bit, 6 + bit]
    return samples + [3, 7]


def digit(place, data):
    """A word that loads a digit."""
    return 0x800 + 0x100 * place + data


def played(samples, kind=0x01):
    """Samples as lines of 32, of the kind 01, or 41 for two wires."""
    return ["%02X" % kind + "".join("%02X" % sample for sample in samples[at:at + 32]) for at in range(0, len(samples), 32)]


def scan(chip, *keys):
    """One key scan of a chip: the closed contacts, each as (DIG, SEG); byte d, bit s is DIG d and SEG s."""
    contacts = [0] * 8
    for digit, segment in keys:
        contacts[digit] |= 1 << segment
    return "02%02X" % chip + "".join("%02X" % byte for byte in contacts)


def text(lines):
    return "".join(line + "\n" for line in lines)
