"""VCD: a value change dump. The definitions name the wires; then come times, and changes by the wires' identifiers."""
import re
from operator import length_hint

from .refusal import Refused, listed, shown
from .times import scale_of

# the blocks that hold changes; of other blocks nothing is used
DUMPS = (b"$dumpvars", b"$dumpall", b"$dumpon", b"$dumpoff", b"$end")
VALUES = b"01xXzZuUwWlLhH-"             # of a scalar
VECTORS = b"bBrRsS"                     # a change of several bits, of a real or of a string; its identifier is a word of its own
WHITE = (b" ", b"\n", b"\t", b"\r", b"\v", b"\f")
HASH = ord("#")
MOST_KEPT = 100000                      # meanings of changes that are kept, so that a file of any size takes the same memory


class Words:
    """The words of a file, a block of them at a time. Which line a word stands in is found when it is asked for."""

    def __init__(self, source):
        self.blocks = source.cut(WHITE)
        self.block = b""
        self.lines = 0          # before this block
        self.count = 0          # of its words
        self.torn = False       # whether the file ends inside a word, for all one knows
        self.words = iter(())

    def more(self):
        """The next block's words, or None."""
        self.lines += self.block.count(b"\n")
        if self.torn:
            raise Refused("the file ends inside a line: it is cut off", self.lines + 1)
        self.block = next(self.blocks, b"")
        if not self.block:
            return None
        words = self.block.split()
        self.torn = not self.block[-1:].isspace()
        if self.torn:
            words.pop()
        self.count = len(words)
        self.words = iter(words)
        return self.words

    def next(self):
        """The next word, or None."""
        while True:
            for word in self.words:
                return word
            if self.more() is None:
                return None

    def at(self):
        """The number, in its block, of the word that was last given."""
        return self.count - length_hint(self.words) - 1

    def mark(self, back=0):
        """Where the last word stands, or one before it: it can be turned into its line later."""
        return self.lines, self.block, self.at() - back

    def line(self, back=0):
        """The line of the last word, or of one before it."""
        return line_of(self.mark(back))

    def rest_of_block(self, mark):
        """The words up to $end."""
        words = []
        for word in iter(self.next, None):
            if word == b"$end":
                return words
            words.append(word)
        raise Refused("a block begins that has no $end", line_of(mark))


def line_of(mark):
    """The line of a marked word."""
    lines, block, at = mark
    if at < 0 or not block:
        return max(lines, 1)
    for number, match in enumerate(re.finditer(rb"\S+", block)):
        if number == at:
            return lines + block.count(b"\n", 0, match.start()) + 1
    return lines + block.count(b"\n")


# ---- the definitions ----


class Definitions:
    """What the definitions say: every identifier with its bits, of each identifier that is looked at, which bit is which wire, and the
    unit of time, or None."""

    def __init__(self, words, text, names):
        self.names = names
        self.scale = None
        self.sizes = {}
        self.seen = []
        found = {wire: {} for wire in names}
        scopes = []
        for word in iter(words.next, None):
            mark = words.mark()
            if word == b"META" and words.at() == words.lines == 0:    # sigrok-cli may write META samplerate: 1000000 before the rest
                words.next(), words.next()
                continue
            if not word.startswith(b"$"):
                raise Refused("'%s' stands before $enddefinitions" % shown(word), line_of(mark))
            block = words.rest_of_block(mark)
            if word == b"$enddefinitions":
                break
            if word == b"$scope":
                scopes.append(block[-1] if block else b"")
            elif word == b"$upscope":
                del scopes[-1:]
            elif word == b"$timescale":
                self.scale = scale_of(block)
            elif word == b"$var":
                self.variable(block, scopes, found, mark)
        else:
            raise Refused("there is no $enddefinitions", words.line())
        self.wires = {}         # identifier to (bit from the right, wire)
        for wire in names:
            if not found[wire]:
                say = shown(names[wire]), listed(self.seen), text.hint(self.seen)
                raise Refused("no wire is named %s; there are: %s%s" % say, line_of(mark))
            if len(found[wire]) > 1:
                say = "more than one wire is named %s; name its scope too, as in scope.%s"
                raise Refused(say % ((shown(names[wire]),) * 2), line_of(mark))
            ((identifier, bit),) = found[wire]
            self.wires.setdefault(identifier, []).append((bit, wire))

    def variable(self, block, scopes, found, mark):
        """One $var: a type, a size, an identifier, a name, and perhaps which bits of a bus it is."""
        if len(block) < 4 or not block[1].isdigit() or not 0 < len(block[1]) < 7 or int(block[1]) == 0:
            raise Refused("$var needs a type, a size, an identifier and a name", line_of(mark))
        size, identifier = int(block[1]), block[2]
        if self.sizes.setdefault(identifier, size) != size:
            raise Refused("identifier %s has two sizes" % shown(identifier), line_of(mark))
        whole = b" ".join(block[3:])
        self.seen.append(whole)
        match = re.fullmatch(rb"(.*?) ?\[(\d{1,6})(?::(\d{1,6}))?\]", whole)
        name, high, low = match.groups() if match else (whole, None, None)
        high = size - 1 if high is None else int(high)
        low = (high if match else 0) if low is None else int(low)
        path = b"." + b".".join(scopes + [name])
        for wire, called in self.names.items():
            wanted = re.fullmatch(rb"(.*?) ?\[(\d{1,6})\]", called)
            if wanted and path.endswith(b"." + wanted[1]):
                bit = int(wanted[2]) - low if high >= low else low - int(wanted[2])
                if 0 <= bit < size and size == abs(high - low) + 1:
                    found[wire][identifier, bit] = True
            elif path.endswith(b"." + called):
                if size > 1:
                    example = shown(b"%s[%d]" % (name, low))
                    why = "%s has %d bits and isn't one wire; name a bit of it, as in %s" % (shown(name), size, example)
                    raise Refused(why, line_of(mark))
                found[wire][identifier, 0] = True


# ---- the changes ----


class Changes:
    """The levels as the changes make them. All changes at one time make one sample. A wire has no level before its first 0 or 1; the
    samples begin when all have one."""

    def __init__(self, words, definitions, text):
        self.words, self.definitions, self.text = words, definitions, text
        self.names = definitions.names
        self.all = sum(self.names)
        self.level = self.known = 0             # the levels now, and which wires have one
        self.level_before = self.known_before = 0   # and as they were when the last time ended
        self.touched = False
        self.time = b""                         # at which they changed: its digits; as many digits are compared as they stand
        self.text.timed(definitions.scale is not None)
        # what a change means, by its word, or by a vector's two: 0 if it is none of ours, else the wires and the levels they go to
        self.meaning = {}
        for identifier, size in definitions.sizes.items():
            wires = sum(wire for _, wire in definitions.wires.get(identifier, ()))
            if wires and size == 1:
                self.meaning[b"0" + identifier] = wires, 0
                self.meaning[b"1" + identifier] = wires, wires
            elif not wires:
                for value in VALUES:
                    self.meaning[bytes([value]) + identifier] = 0

    def read(self):
        """All that comes after the definitions."""
        meaning = self.meaning.get
        words = self.words.words
        time = b""
        while words is not None:
            for word in words:
                change = meaning(word)
                if change:
                    self.change(*change)
                elif change is None:
                    if word[0] != HASH:
                        self.other(word)
                        continue
                    digits = word[1:]
                    if len(digits) != len(time) or digits <= time or not digits.isdigit():
                        if not self.later(digits, time):
                            continue
                    if self.touched:
                        self.time = time
                        self.sample(1)
                    time = digits
            # a block or a vector may have gone on in the next block of words
            words = self.words.words if self.words.words is not words else self.words.more()
        if self.touched:
            self.time = time
            self.sample(0)
        missing = self.without_level(self.known)
        if missing:
            raise Refused("the recording ends, and %s has had no level" % missing, self.words.line())

    def without_level(self, known):
        """The wires that have had no level, for a message."""
        return " and ".join(shown(name) for wire, name in self.names.items() if not known & wire)

    def later(self, digits, time):
        """Whether a time is later than the one before it, or is the first; refused where it is earlier."""
        if not digits.isdigit() or len(digits) > 99:
            raise Refused("'#%s' is no time" % shown(digits), self.words.line())
        if not time:
            return True
        if int(digits) < int(time):
            raise Refused("time %d comes after time %d" % (int(digits), int(time)), self.words.line())
        return int(digits) > int(time)

    def change(self, wires, levels):
        """Wires go to levels."""
        self.level = self.level & ~wires | levels
        self.known |= wires
        self.touched = True

    def other(self, word):
        """A word that is neither a time nor a change of a scalar to 0 or 1."""
        kind = word[:1]
        if kind in VECTORS and len(word) > 1:
            self.vector(word)
        elif kind in VALUES and len(word) > 1:
            self.scalar(word, word[1:])
        elif kind == b"$":
            if word not in DUMPS:
                self.words.rest_of_block(self.words.mark())
        else:
            raise Refused("'%s' is no change of a wire" % shown(word), self.words.line())

    def scalar(self, word, identifier):
        """A change of a scalar: one of ours that is undefined, or one that isn't declared."""
        if identifier not in self.definitions.sizes:
            raise Refused("'%s' changes %s, which isn't declared" % (shown(word), shown(identifier)), self.words.line())
        if self.definitions.sizes[identifier] > 1:
            raise Refused("%s has more than one bit, and '%s' gives it one" % (shown(identifier), shown(word)), self.words.line())
        for _, wire in self.definitions.wires[identifier]:
            self.undefined(wire, word[:1])

    def undefined(self, wire, value):
        """A wire is neither 0 nor 1: nothing before it has had a level."""
        if self.known & wire:
            raise Refused("%s is undefined (%s)" % (shown(self.names[wire]), shown(value)), self.words.line())

    def vector(self, word):
        """A change of several bits, as b0101 !, whose identifier is the next word."""
        identifier = self.words.next()
        if identifier is None:
            raise Refused("the file ends inside a change: it is cut off", self.words.line())
        both = word + b" " + identifier
        change = self.meaning.get(both)
        if change is None:
            change, always = self.bits(word, identifier)
            if always and len(self.meaning) < MOST_KEPT:
                self.meaning[both] = change
        if change:
            self.change(*change)

    def bits(self, word, identifier):
        """What a vector's change means, and whether it always means that. Bits that are left out on the left are 0, or undefined where
        the first one written is."""
        size = self.definitions.sizes.get(identifier)
        if size is None:
            raise Refused("'%s %s' changes an identifier that isn't declared" % (shown(word), shown(identifier)), self.words.line())
        value = word[1:]
        if word[:1] in b"bB" and (value.translate(None, VALUES) or len(value) > size):
            raise Refused("'%s' is no value of %d bits" % (shown(word), size), self.words.line())
        wires = levels = 0
        always = True
        for bit, wire in self.definitions.wires.get(identifier, ()):
            if word[:1] not in b"bB":
                raise Refused("%s has '%s', which is no level" % (shown(self.names[wire]), shown(word)), self.words.line())
            written = value[-1 - bit:len(value) - bit] or (b"0" if value[:1] in b"01" else value[:1])
            if written in b"01":
                wires |= wire
                levels |= wire * (written == b"1")
            else:
                self.undefined(wire, written)
                always = False
        return (wires, levels) if wires else 0, always

    def sample(self, back):
        """A time has ended, so many words ago. A clock's rise before all wires have a level can't be left out without a trace: it is
        refused; so is a wire's fall, where that may be a start."""
        self.touched = False
        if self.level == self.level_before and self.known == self.known_before:
            return
        if self.known_before != self.all:
            telling = self.text.rising & self.level | self.text.moving
            for wire in self.names:
                if self.known_before & (self.level_before ^ self.level) & telling & wire:
                    say = shown(self.names[wire]), "rises" if self.level & wire else "falls", self.without_level(self.known_before)
                    raise Refused("%s %s before %s has had a level" % say, self.words.line(back))
        if self.known == self.all:
            self.text.take(self.level, lambda: self.words.line(back), lambda: self.definitions.scale.text(self.time))
        self.level_before, self.known_before = self.level, self.known


def read(source, text, names):
    """Reads a recording; `names` has the wires' names."""
    words = Words(source)
    Changes(words, Definitions(words, text, names), text).read()
