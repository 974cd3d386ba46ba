"""Used by random_captures, random_wires and random_settings: damages a text, and writes many."""
import os
import random


def damaged(rng, lines, own):
    """A text with one wrong place, as bytes. Of the kinds 4 to 7 and 10, a wrong line of the form itself, own gives what is to be done:
    it is called with the kind, the lines and a place past the first line."""
    lines = list(lines)
    at = rng.randrange(len(lines))
    body_at = rng.randrange(1, len(lines)) if len(lines) > 1 else 0
    kind = rng.choice([4, 6, 7, *range(16)])
    if kind == 0:       # a wrong digit
        place = rng.randrange(len(lines[at]))
        lines[at] = lines[at][:place] + rng.choice("GgO@/:`xX -+\r\t\0\xff") + lines[at][place + 1:]
    elif kind == 1:     # lower case
        chosen = [n for n, line in enumerate(lines) if line != line.lower()] or [at]
        at = rng.choice(chosen)
        lines[at] = lines[at].lower()
    elif kind == 2:     # an odd number of digits
        lines[at] = rng.choice([lines[at][:-1], lines[at] + "0", "0" + lines[at]])
    elif kind == 3:     # two lines run together
        lines[at:at + 2] = ["".join(lines[at:at + 2])]
    elif kind in (4, 5, 6, 7, 10):
        own(rng, kind, lines, body_at or 1)
    elif kind == 8:     # no first line, or two
        lines = rng.choice([lines[1:], lines[:1] + lines])
    elif kind == 9:     # blank lines
        lines.insert(rng.choice([0, 1, at, len(lines)]), "")
    text = "".join(line + "\n" for line in lines).encode("latin-1")
    if kind == 11:      # the last 0AH missing
        text = text[:-1]
    elif kind == 12:    # cut anywhere
        text = text[:rng.randrange(len(text))]
    elif kind == 13:    # other line ends
        text = text.replace(b"\n", rng.choice([b"\r\n", b"\r", b" \n", b"\0"]))
    elif kind == 14:    # any byte in place of one
        place = rng.randrange(len(text))
        text = text[:place] + bytes([rng.randrange(256)]) + text[place + 1:]
    elif kind == 15:    # something after the last line
        text += rng.choice([b"0", b"01", b"0107", b"\0", b" ", b"\n\n", bytes(rng.randrange(256) for _ in range(20))])
    return text


def write_texts(seed, count, folder, capture):
    """Writes texts, about one in three damaged: capture gives the lines of one, and what damages them."""
    rng = random.Random(seed)
    os.makedirs(folder, exist_ok=True)
    for number in range(count):
        lines, own = capture(rng)
        if rng.random() < 0.35:
            text = damaged(rng, lines, own)
            if rng.random() < 0.1 and text.endswith(b"\n"):
                text = text[:-1]
        else:
            text = "".join(line + "\n" for line in lines).encode()
        with open(os.path.join(folder, "%05d.txt" % number), "wb") as file:
            file.write(text)
