"""Raw recordings: one sample after another, each of the same number of bytes, lowest byte first; each wire is a bit."""
from .refusal import Refused


def read(source, text, width, bits, others, rate):
    """Reads a recording. `width` is the bytes of a sample, or None where the user didn't say; `bits` has the number of each wire's
    bit. The other bits of a sample may be anything where `others` is true, or else must be 0. `rate` is the samplerate, or None."""
    text.timed(rate is not None)
    size = width or 1
    offset = 0
    rest = b""
    halves = [False, False]     # whether a byte that isn't 0 stands at an even place, and at an odd one
    for block in source.blocks():
        for half in (0, 1):
            halves[half] = halves[half] or bool(block[half ^ offset & 1::2].strip(b"\0"))
        block = rest + block
        whole = len(block) - len(block) % size
        rest = block[whole:]
        take(block[:whole], text, size, bits, others, offset, rate)
        offset += whole
    if rest:
        raise Refused("the recording ends inside a sample: its length isn't a multiple of %d" % size, offset)
    if width is None and offset > 15 and halves[0] != halves[1]:
        raise Refused("every second byte is 00H, as where a sample takes two bytes: say --width 2, or --width 1 if it takes one")


def take(block, text, width, bits, others, offset, rate):
    """The samples of a block."""
    lanes = [block[lane::width] for lane in range(width)]
    wrong = None if others else foreign(block, lanes, bits, offset, text.options("-bit"))
    if wrong:
        lanes = [lane[:(wrong.place - offset) // width] for lane in lanes]
    samples = 0
    for wire, bit in bits.items():
        levels = lanes[bit // 8].translate(bytes(wire * (value >> bit % 8 & 1) for value in range(256)))
        samples |= int.from_bytes(levels, "little")
    first = offset // width
    text.take_all(samples.to_bytes(len(lanes[0]), "little"), lambda at: offset + at * width, lambda at: rate.text(first + at))
    if wrong:
        raise wrong


def foreign(block, lanes, bits, offset, options):
    """What to say against the first sample with a bit that is no wire's, or None; `options` are those that say which are."""
    places = []
    for lane, column in enumerate(lanes):
        used = sum(1 << bit % 8 for bit in bits.values() if bit // 8 == lane)
        wrong = column.translate(None, bytes(value for value in range(256) if not value & ~used))
        if wrong:
            places.append(column.index(wrong[0]))
    if not places:
        return None
    width = len(lanes)
    at = min(places) * width
    sample = "%0*XH" % (2 * width, int.from_bytes(block[at:at + width], "little"))
    if width == 1:
        return Refused("%s is no sample; samples are 00H to %02XH" % (sample, sum(bits)), offset + at)
    return Refused("%s has a bit that is no wire's; %s say which are" % (sample, options), offset + at)
