"""What was typed: the options of `import`, which `watch` and `reads` take too, and the files."""
import os
import re

from .ch450 import TwoWires
from .chain import MOST_CHIPS, Chain, ChainWithDout
from .refusal import BadUsage, shown
from .times import rate_of

FORMS = ("vcd", "csv", "raw", "sr")
# the options of each kind of panel
OPTIONS = {
    Chain: ("chips", "din", "dclk", "load", "dout", "din-bit", "dclk-bit", "load-bit", "dout-bit", "stream"),
    TwoWires: ("two-wires", "key", "digits", "scl", "sda", "scl-bit", "sda-bit"),
}
# those without a value, and what they stand for
FLAGS = {"raw": ("format", "raw"), "two-wires": ("two-wires", "yes"), "stream": ("stream", "yes")}
VALUED = {"format", "width", "rate", "out", *OPTIONS[Chain], *OPTIONS[TwoWires]} - set(FLAGS)
WIDEST = 64     # bytes of a raw sample
FASTEST = 10 ** 12
NUMBERS = {2: "two", 3: "three", 4: "four"}


def options_and_files(words, flags, valued):
    """The options as given, and the files."""
    given = {}
    files = []
    words = list(words)
    while words:
        word = words.pop(0)
        if word == "--":
            files += words
            break
        if word == "-" or not word.startswith("-"):
            files.append(word)
            continue
        name, equals, value = word[2:].partition("=")
        if word[2:] in flags and word.startswith("--"):
            name, value = flags[name]
        elif not word.startswith("--") or name not in valued:
            raise BadUsage("no such option: %s" % shown(word))
        elif not equals and words:
            value = words.pop(0)
        if not value:
            raise BadUsage("--%s needs a value" % name)
        if given.get(name, value) != value:
            raise BadUsage("--%s is given twice" % name)
        given[name] = value
    return given, files


def arguments(words, flags, valued, command):
    """The options as given, and the one file."""
    given, files = options_and_files(words, flags, valued)
    if len(files) != 1:
        raise BadUsage("%s takes one file" % command)
    return given, files[0]


def number(given, name, least, most):
    """The number that an option gives, or None."""
    value = given.get(name)
    if value is None:
        return None
    if not re.fullmatch("[0-9]{1,4}", value) or not least <= int(value) <= most:
        raise BadUsage("--%s takes %d to %d" % (name, least, most))
    return int(value)


def bytes_of(given, name, count, most, say):
    """The bytes that an option gives by their hexadecimal digits, or None."""
    value = given.get(name)
    if value is None:
        return None
    if not re.fullmatch("[0-9A-Fa-f]{%d}" % (2 * count), value) or max(bytes.fromhex(value)) > most:
        raise BadUsage("--%s takes %s" % (name, say))
    return bytes.fromhex(value)


def kind_of(given):
    """The kind of panel: the options tell it, and those of two kinds don't go together."""
    of_chain, of_two = ([name for name in given if name in OPTIONS[kind]] for kind in (Chain, TwoWires))
    if of_chain and of_two:
        raise BadUsage("--%s is for the three wires of CH452 chips, and --%s for the two of a CH450" % (of_chain[0], of_two[0]))
    if of_two:
        return TwoWires
    return ChainWithDout if "dout" in given or "dout-bit" in given else Chain


class Wanted:
    """The options, tested: the format or None, the text to be made, the wires' names, the bytes of a raw sample or None and its bits, its
    samplerate or None."""

    def __init__(self, given, kind=None):
        """`kind` is that of the panel, where the options don't tell it."""
        self.form = given.get("format")
        if self.form not in (None, *FORMS):
            raise BadUsage("no such format: %s" % shown(self.form))
        kind = kind or kind_of(given)
        number_of = NUMBERS[len(kind.wires)]
        chips = number(given, "chips", 1, MOST_CHIPS)
        key = bytes_of(given, "key", 1, 0x7F, "two hexadecimal digits, 00 to 7F")
        digits = bytes_of(given, "digits", 6, 0xFF, "twelve hexadecimal digits, DIG2 first")
        self.text = TwoWires(key[0] if key else 0, digits) if kind is TwoWires else kind(chips)
        if "stream" in given:
            self.text.stream = True
        self.names = {wire: os.fsencode(given.get(name, name.upper())) for name, wire in kind.wires.items()}
        if len(set(self.names.values())) != len(self.names):
            raise BadUsage("%s must name %s wires" % (kind.options(), number_of))
        self.named = bool(set(kind.wires) & set(given))
        self.width = number(given, "width", 1, WIDEST)
        self.others = any(name + "-bit" in given for name in kind.wires)
        self.bits = {}
        for place, (name, wire) in enumerate(kind.wires.items()):
            bit = number(given, name + "-bit", 0, 8 * (self.width or 1) - 1)
            self.bits[wire] = place if bit is None else bit
        if len(set(self.bits.values())) != len(self.bits):
            raise BadUsage("%s must name %s bits" % (kind.options("-bit"), number_of))
        self.rate = self.samplerate(given)

    def samplerate(self, given):
        """That of --rate, or None."""
        value = given.get("rate")
        if value is None:
            return None
        rate = rate_of(value) if re.fullmatch("[0-9]+[kKmMgG]?", value) else None
        if rate is None or rate.hertz > FASTEST:
            raise BadUsage("--rate takes a whole number of samples in a second, as 1000000 or 1M")
        return rate

    def goes_with(self, form):
        """Refuses options that the format has no use for."""
        options = self.text.options("-bit")
        if form == "raw" and self.named:
            raise BadUsage("a raw recording has no names of wires; %s say which bits they are" % options)
        if form != "raw" and (self.others or self.width):
            raise BadUsage("--width, %s go with raw" % options)
        if form != "raw" and self.rate:
            raise BadUsage("--rate goes with raw; a recording of another format has its times itself")
