"""The counts of one recording or of several, in a table, and the answer in words."""
from show import table

from .account import COUNTS

HEAD = ("interrupts", "codes", "after an interrupt", "read again", "otherwise", "cut", "not the latch")
FORM = "%s  %s = %s + %s + %s  %s  %s"
SECOND = "A key that is pressed a second time before the till reads isn't on the wires, and isn't counted here."
DIFFERS = "Where DOUT isn't the latch, the model and the panel disagree, or a wire is on the wrong pin: the counts may be wrong."


def totals(counted, failed):
    """The table and the words. `counted` are names and counts, `failed` how many files couldn't be read to their end."""
    rows = [counts for _, counts in counted]
    names = [name for name, _ in counted]
    whole = {name: sum(counts[name] for counts in rows) for name in COUNTS}
    if len(counted) > 1:
        rows.append(whole)
        names.append("all")
    lines = table(HEAD, FORM, [[counts[name] for name in COUNTS[:len(HEAD)]] for counts in rows])
    names = ["file"] + names if len(counted) > 1 else [""] * len(lines)
    yield from ("%s  %s" % pair if pair[1] else pair[0] for pair in zip(lines, names))
    yield answer(whole["codes"], whole["again"], whole["unseen"] or whole["astray"], failed)
    yield SECOND
    if whole["differs"]:
        yield DIFFERS
    if failed:
        yield "%s couldn't be read, or not to the end; what wasn't read isn't counted." % ("1 file" if failed == 1 else "%d files" % failed)


def answer(codes, again, doubt, failed):
    """How many codes the till got, and whether one was read twice; `doubt` is whether the lines leave that in doubt."""
    if doubt and not codes:
        return "What the till got isn't known."
    got = "As far as is known, the till got " if doubt or failed else "The till got "
    if not codes:
        return got + "no code."
    again = "none was" if not again else "1 of them was" if again == 1 else "%d of them were" % again
    return got + "%s, and %s read again without a new interrupt." % ("1 code" if codes == 1 else "%d codes" % codes, again)
