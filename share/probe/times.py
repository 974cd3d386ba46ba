"""The times of samples: seconds, as decimal text with the recording's own resolution."""
import re

MOST_PLACES = 12            # of a time that a samplerate doesn't give exactly
PREFIXES = {"": 0, "k": 3, "m": 6, "g": 9}
UNITS = {"s": 0, "ms": 3, "us": 6, "ns": 9, "ps": 12, "fs": 15}
PLAIN = re.compile(r"-?[0-9]+(?:\.[0-9]+)?")
NUMBER = re.compile(r"[+-]?(?:[0-9]+\.?[0-9]*|\.[0-9]+)(?:[eE][+-]?[0-9]{1,2})?")


def pointed(number, places):
    """So many parts of a second, of which there are 10^places in it, as decimal text."""
    if not places:
        return str(number)
    digits = str(number).rjust(places + 1, "0")
    return digits[:-places] + "." + digits[-places:]


class Rate:
    """A samplerate: sample n, from 0, comes at n / rate. The text has as many places as it takes to be exact, 12 at most."""

    def __init__(self, hertz, divisor=1):
        self.hertz, self.divisor = hertz, divisor       # so many samples in so many seconds
        exact = [places for places in range(MOST_PLACES) if divisor * 10 ** places % hertz == 0]
        self.places = exact[0] if exact else MOST_PLACES
        self.parts = divisor * 10 ** self.places

    def text(self, sample):
        """The time of a sample, by its number."""
        return pointed((2 * sample * self.parts + self.hertz) // (2 * self.hertz), self.places)


def rate_of(text):
    """The samplerate that is written as 1000000, 1M, 1 MHz or 2.5 MHz, or None. (sigrok takes a small m for a million too.)"""
    match = re.fullmatch(r"([0-9]{1,15})(?:\.([0-9]{1,9}))? ?([kKmMgG]?)(?:Hz)?", text)
    if not match:
        return None
    whole, part, prefix = match[1], match[2] or "", match[3].lower()
    hertz = int(whole + part) * 10 ** PREFIXES[prefix]
    return Rate(hertz, 10 ** len(part)) if hertz else None


class Scale:
    """A VCD's unit of time, as 10 ns: a factor and places."""

    def __init__(self, factor, places):
        while places and factor % 10 == 0:
            factor, places = factor // 10, places - 1
        self.factor, self.places = factor, places

    def text(self, digits):
        """The time that a VCD writes by these digits; none are those before its first time."""
        return pointed(int(digits or 0) * self.factor, self.places)


def scale_of(words):
    """What a $timescale says, or None."""
    match = re.fullmatch(rb"(10{0,2})([munpf]?s)", b"".join(words))
    return Scale(int(match[1]), UNITS[match[2].decode()]) if match else None


def seconds(text, places):
    """The seconds of a number that counts parts of them, 10^places in each, as decimal text; None where it isn't a number. Where the
    unit is a second and the number is written plainly, it stays as it is written."""
    if not places and PLAIN.fullmatch(text):
        return text
    if not NUMBER.fullmatch(text):
        return None
    from decimal import Decimal     # here alone: it takes long to load
    return format(Decimal(text).scaleb(-places), "f")
