"""Used by random_captures: makes random streams for `watch`, raw ones and long texts, out of random captures and tills."""
import os
import random

from random_damage import damaged
from random_tills import till


def wrongs(rng, count):
    """Of so many samples, what is recorded of DOUT: its level (0), the contrary (1), or nothing (None). Mostly its level; or it begins
    late, lacks a piece or single ones, or is wrong for a while or now and then."""
    kind = rng.randrange(16)
    if kind < 3:
        return [None] * count
    levels = [0] * count
    at = rng.randrange(count + 1)
    if kind < 6:        # it begins late
        levels[:at] = [None] * at
    if 6 <= kind < 10:  # a piece
        size = min(rng.randrange(40), count - at)
        levels[at:at + size] = [None if kind < 8 else 1] * size
    if kind == 10:      # any, or none
        return [rng.choice([0, 1, None]) for _ in levels]
    missing, wrong = rng.choice([(0, 0), (0, 0), (0.02, 0), (0, 0.02), (0.02, 0.02), (0.1, 0.1)])
    chances = [(rng.random(), rng.random()) for _ in levels]
    return [None if one < missing else 1 if other < wrong else level for (one, other), level in zip(chances, levels)]


def raw_of(rng, lines):
    """A capture as a raw stream. A sample with DOUT is 10H + sample, or 18H + sample where DOUT is to be wrong; set_dout puts the levels in.
    At times each sample stands twice, and the first time its DOUT may be any, as where it follows late."""
    stream = bytearray.fromhex(lines[0])
    frames = [bytes.fromhex(line) for line in lines[1:]]
    late = rng.random() < 0.15
    recorded = iter(wrongs(rng, sum(len(frame) - 1 for frame in frames if frame[0] == 1)))
    for frame in frames:
        if frame[0] == 2:
            stream += bytes([0x80 + frame[1]]) + frame[2:]
            continue
        for sample in frame[1:]:
            wrong = next(recorded)
            if late:
                stream.append(sample if wrong is None else 0x10 + 8 * rng.randrange(2) + sample)
            stream.append(sample if wrong is None else 0x10 + 8 * wrong + sample)
    return bytes(stream)


def damaged_raw(rng, stream):
    """A raw stream with one wrong place, or with another item there: a byte lost, put in or replaced may leave it of the form."""
    kind = rng.randrange(8)
    at = rng.randrange(3, len(stream) + 1)
    chips = stream[2]
    bad = bytes([rng.choice([0x08, 0x0A, 0x0F, 0x20, 0x7F, 0x80 + chips, 0x87, 0x88, 0xFF, rng.randrange(256)])])
    if kind == 0:       # put in
        return stream[:at] + bad + stream[at:]
    if kind == 1:       # in place of one
        return stream[:at] + bad + stream[at + 1:]
    if kind == 2:       # lost, so that a scan may take a sample
        return stream[:at] + stream[at + 1:]
    if kind == 3:       # cut anywhere, in the head too
        return stream[:rng.randrange(1, len(stream) + 1)]
    if kind == 4:       # the head
        return rng.choice([b"\0\0" + stream[2:], b"\0\2" + stream[2:], b"\0\1\0" + stream[3:], b"\0\1\x09" + stream[3:],
                           b"\0\1" + bad + stream[3:], stream[1:], stream[3:], b"\0" + stream])
    if kind == 5:       # a scan that isn't whole at the end
        return stream + bytes([0x80 + rng.randrange(chips)]) + bytes(rng.randrange(8))
    if kind == 6:       # a scan of a chip that isn't there
        return stream[:at] + bytes([0x80 + rng.choice([chips, 8, 9, 127])]) + bytes(8) + stream[at:]
    return stream + rng.choice([b"\n", b"\xff", b"000101\n", stream])


def long_lines(rng, capture, longer):
    """8 chips, and the lines of captures of any chips one after the other, longer than this."""
    lines, size = ["000108"], 0
    while size <= longer:
        body = capture(rng)[0][1:]
        lines += body
        size += sum(len(line) + 1 for line in body)
    return lines


def write_streams(seed, count, folder, capture):
    """Writes streams, about one in four damaged: most are raw, every other of a till, and of every fifty one is a text longer than a
    capture may be, and one a raw stream longer than 65,536 bytes."""
    rng = random.Random(seed)
    os.makedirs(folder, exist_ok=True)
    for number in range(count):
        is_text = number % 50 == 0
        lines, own = capture(rng)
        if number % 50 < 2:
            lines = long_lines(rng, capture, 65536 if is_text else 150000)
        elif number % 2 == 0:
            lines = till(rng)
        stream = "".join(line + "\n" for line in lines).encode() if is_text else raw_of(rng, lines)
        if rng.random() < 0.25:
            stream = damaged(rng, lines, own) if is_text else damaged_raw(rng, stream)
        with open(os.path.join(folder, "%05d.%s" % (number, "txt" if is_text else "raw")), "wb") as file:
            file.write(stream)
