"""What `watch` wrote, read again: its lines, each of its form."""
import re

from probe.refusal import Refused, shown

FORM = re.compile("10[0-9A-F]{6}|1[126]0[0-7][0-9A-F]{2}|15[0-9A-F]{16}|1[78]0[0-7]|300[0-7][0-9A-F]{16}|1F[0-9A-F]{10}(?:[0-9A-F]{8})?")
BESIDE = re.compile("(?:%s) {4}" % FORM.pattern)
LONGEST = 20
AT_ONCE = 1 << 16
WHERE = "lines"         # the form of such a text, for messages


def refused(why, number):
    """The text can't be read on from a line."""
    error = Refused(why, number)
    error.form = WHERE
    return error


def wrong(line, number):
    """What is to be said of a line that isn't of the form."""
    hint = "; it must be as it is without --explain or --picture" if BESIDE.match(line) else ""
    return refused("'%s' is no line of watch%s" % (shown(line), hint), number)


class Lines:
    """The lines from a source, in lists of those that came together."""

    def __init__(self, source):
        self.source = source

    def lines(self):
        """All of them; refused where one isn't of the form, stands after a refusal, or isn't whole."""
        rest = ""
        number = 0
        over = False
        for block in iter(lambda: self.source.read1(AT_ONCE), b""):
            *whole, rest = (rest + block.decode("latin-1")).split("\n")
            for at, line in enumerate(whole, number + 1):
                if over or not FORM.fullmatch(line):
                    yield whole[:at - number - 1]
                    raise refused("a line stands after a refusal", at) if over else wrong(line, at)
                over = line.startswith("1F")
            number += len(whole)
            yield whole
            if len(rest) > LONGEST:
                raise wrong(rest, number + 1)
        if rest:
            raise refused("the last line isn't whole", number + 1)
