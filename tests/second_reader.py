"""A second reading of probes' recordings, for tests/mutated_probes: slow, all in memory, and without a line of share/. What it can't
read with certainty it gives up, by an exception.

    text(path, options)      the text or stream of a recording, as bytes, and the times of its samples, a line each, or None; options as the
                             command has them, a dictionary
"""
import csv
import decimal
import gzip
import io
import re
import zipfile
import zlib
from decimal import Decimal

decimal.getcontext().prec = 300
THREE = ("din", "dclk", "load")
FOUR = (*THREE, "dout")
TWO = ("scl", "sda")
OF_TWO = ("key", "digits", *TWO)     # options that say that the wires are two


class Unsure(Exception):
    """It can't be read with certainty."""


def sure(condition):
    if not condition:
        raise Unsure


# ---- times ----

UNITS = {"s": 0, "ms": -3, "us": -6, "ns": -9, "ps": -12, "fs": -15, "milliseconds": -3, "microseconds": -6, "nanoseconds": -9,
         "picoseconds": -12, "femtoseconds": -15}


def rate_of(written):
    """A samplerate, in samples a second, or None."""
    parts = re.fullmatch(r"([0-9]{1,15}(?:\.[0-9]{1,9})?) ?([kKmMgG]?)(?:Hz)?", written)
    hertz = Decimal(parts[1]) * 1000 ** " kmg".index(parts[2].lower() or " ") if parts else 0
    return hertz or None


def at_rate(number, hertz):
    """When a sample comes: with so many places that the second one's time is exact, or with 12."""
    places = next((places for places in range(12) if 10 ** places / hertz % 1 == 0), 12)
    return format((number / hertz).quantize(Decimal(1).scaleb(-places), decimal.ROUND_HALF_UP), "f")


def plain(written, exponent):
    """A number of a unit, in seconds."""
    if re.fullmatch(r"-?[0-9]+(\.[0-9]+)?", written) and not exponent:
        return written
    return format(Decimal(written).scaleb(exponent), "f")


# ---- raw ----


def raw(data, width, bits, only, hertz):
    sure(len(data) % width == 0)
    samples = []
    for at in range(0, len(data), width):
        value = sum(byte << 8 * place for place, byte in enumerate(data[at:at + width]))
        sure(not only or value < 1 << len(bits))
        samples.append(sum((value >> bit & 1) << place for place, bit in enumerate(bits)))
    if only and width == 1 and len(samples) > 15:
        sure(any(samples[0::2]) == any(samples[1::2]))
    return samples, hertz and [at_rate(Decimal(at), hertz) for at in range(len(samples))]


def session(data, names):
    """A session of sigrok."""
    with zipfile.ZipFile(io.BytesIO(data)) as archive:
        sure(archive.testzip() is None)
        metadata = archive.read("metadata").decode()
        sure(metadata.count("[device 1]\n") == 1)
        values = {}
        for line in metadata.split("[device 1]\n")[1].split("\n"):
            if line.startswith("["):
                break
            key, equals, value = line.partition("=")
            sure(equals or not line.strip())
            values[key.strip().lower()] = value.strip()
        parts = [name for name in archive.namelist() if name.startswith("logic-1-")]
        parts.sort(key=lambda name: int(name.rsplit("-", 1)[1]))
        samples = b"".join(archive.read(name) for name in parts)
        sure(parts and len(set(archive.namelist())) == len(archive.namelist()))
        bits = []
        for name in names:
            found = [key for key, value in values.items() if re.fullmatch(r"probe\d+", key) and value == name]
            sure(len(found) == 1)
            bits.append(int(found[0][5:]) - 1)
        return raw(samples, int(values["unitsize"]), bits, False, rate_of(values.get("samplerate", "")))


# ---- CSV ----


def table(data, names):
    text = data.decode("latin-1")
    if text.startswith("\xef\xbb\xbf"):
        text = text[3:]
    lines = text.split("\n")
    channels = hertz = None
    while lines and (not lines[0].strip() or lines[0][0] in ";#" or lines[0].startswith("META samplerate: ")):
        if lines[0].lstrip("; ").startswith("Channels ("):
            channels = [name.strip() for name in lines[0].split(":", 1)[1].split(",")]
        if lines[0][:1] == ";" and lines[0][1:].lstrip(" ").startswith("Samplerate:"):
            hertz = rate_of(lines[0].split(":", 1)[1].strip())
        lines.pop(0)
    sure(lines)
    found = set()
    for separator in ",;\t":
        try:
            fields = cells(lines[0], separator)
        except Unsure:
            continue
        for columns, header in header_of(fields, names, channels):
            found.add((separator, columns, header))
    found = {choice for choice in found if choice[2]} or found
    sure(len(found) == 1)
    ((separator, columns, header),) = found
    head = cells(lines[0], separator)
    rows = [cells(line, separator) for line in lines[header > 0:] if line.strip() and (separator == ";" or line[0] != ";")]
    sure(rows)
    timed = header and 0 not in columns and re.match(r"(?i)time|(t|sec|seconds?|samples?)$", head[0])
    times = []
    written = []
    samples = []
    for row in rows:
        sure(len(row) == len(head))
        sure(all(row[column] in ("0", "1") for column in columns))
        samples.append(sum(int(row[column]) << place for place, column in enumerate(columns)))
        if timed:
            written.append(row[0].replace(",", ".") if separator != "," else row[0])
            times.append(float(written[-1]))
    sure(all(before <= after for before, after in zip(times, times[1:])))
    if hertz:
        numbers = range(len(rows))
        if timed and re.fullmatch("0*[1-9][0-9]{0,17}", written[0]):
            numbers = [Decimal(time) / Decimal(written[0]) - 1 if time.isdigit() else None for time in written]
        return samples, [None if number is None else at_rate(Decimal(number), hertz) for number in numbers]
    if not timed or head[0].lower().startswith("sample"):
        return samples, None
    unit = re.search(r"[\[(]([a-z]+)[\])]", head[0])
    exponent = UNITS.get(unit[1] if unit else head[0], 0)
    return samples, [plain(time, exponent) if re.fullmatch(r"[-+0-9.eE]+", time) else None for time in written]


def cells(line, separator):
    """The fields of one line, by Python's own reader."""
    try:
        (row,) = csv.reader([line], delimiter=separator, skipinitialspace=True, strict=True)
    except (csv.Error, ValueError):
        raise Unsure from None
    sure(not any('"' in field for field in row))
    return [field.strip() for field in row]


def header_of(fields, names, channels):
    """Every reading of the first line: the wires' columns, and 2 where they are named in it, 1 where it has their unit, 0 for none."""
    if all(fields.count(name) == 1 for name in names):
        yield tuple(fields.index(name) for name in names), 2
        return
    logic = [at for at, field in enumerate(fields) if field == "logic"] or list(range(len(fields)))
    levels = set(fields) <= {"0", "1"}
    header = int("logic" in fields)
    if channels and len(channels) == len(logic) and (header or levels) and all(channels.count(name) == 1 for name in names):
        yield tuple(logic[channels.index(name)] for name in names), header
    if all(name.isdigit() and 1 <= int(name) <= len(fields) for name in names):
        columns = tuple(int(name) - 1 for name in names)
        yield columns, int(not all(fields[column] in ("0", "1") for column in columns))


# ---- VCD ----


def dump(data, names):
    text = data.decode("latin-1")
    sure(text and text[-1] in " \n\t\r\v\f")
    words = re.findall(r"[^ \n\t\r\v\f]+", text)
    if words[:1] == ["META"]:
        words = words[3:]
    at = words.index("$enddefinitions")
    wires, sizes = definitions(words[:at], names)
    scale = None
    for start in [place for place, word in enumerate(words[:at]) if word == "$timescale"]:
        parts = re.fullmatch("(10{0,2})([munpf]?s)", "".join(words[start + 1:words.index("$end", start)]))
        scale = parts and Decimal(len(parts[1]) - 1 + UNITS[parts[2]])
    at = words.index("$end", at) + 1
    groups = [[]]           # the changes of each time
    times = [0]
    now = None
    while at < len(words):
        word = words[at]
        at += 1
        if word in ("$dumpvars", "$dumpall", "$dumpon", "$dumpoff", "$end"):
            continue
        if word[0] == "$":
            sure("$end" in words[at:])
            at = words.index("$end", at) + 1
        elif word[0] == "#":
            sure(re.fullmatch("#[0-9]{1,99}", word))
            sure(now is None or int(word[1:]) >= now)
            if int(word[1:]) != now:
                groups.append([])
                times.append(int(word[1:]))
            now = int(word[1:])
        elif word[0] in "bBrRsS" and len(word) > 1:
            sure(at < len(words) and words[at] in sizes)
            if word[0] in "bB":
                sure(len(word) - 1 <= sizes[words[at]] and re.fullmatch("[01xXzZuUwWlLhH-]+", word[1:]))
                groups[-1].append((words[at], word[1:]))
            else:
                sure(words[at] not in [identifier for identifier, _ in wires])
            at += 1
        else:
            sure(word[0] in "01xXzZuUwWlLhH-" and word[1:] in sizes)
            ours = word[1:] in [identifier for identifier, _ in wires]
            sure(sizes[word[1:]] == 1 or not ours)
            if ours:
                groups[-1].append((word[1:], word[0]))
    samples, places = levels_of(groups, wires)
    return samples, None if scale is None else [format(Decimal(times[place]).scaleb(scale), "f") for place in places]


def levels_of(groups, wires):
    """The samples that groups of changes make, and the number of the group of each."""
    samples = []
    places = []
    levels = [None] * len(wires)
    for number, group in enumerate(groups):
        before = list(levels)
        for identifier, value in group:
            for place, (wire, bit) in enumerate(wires):
                if wire == identifier:
                    written = value[::-1]
                    level = written[bit] if bit < len(written) else "0" if written[-1] in "01" else written[-1]
                    sure(level in "01" or levels[place] is None)
                    levels[place] = int(level) if level in "01" else None
        if None in before:
            rises = [before[place] == 0 and levels[place] == 1 for place in range(len(wires))]
            falls = [before[place] == 1 and levels[place] == 0 for place in range(len(wires))]
            sure(not (rises[1] or rises[2] if len(wires) > 2 else rises[0] or rises[1] or falls[1]))
        if None not in levels:
            samples.append(sum(level << place for place, level in enumerate(levels)))
            places.append(number)
    sure(None not in levels)
    return samples, places


def definitions(words, names):
    """For each wire its identifier and its bit from the right, and the size of every identifier."""
    found = [set() for _ in names]
    sizes = {}
    scopes = []
    at = 0
    while at < len(words):
        kind = words[at]
        sure(kind[0] == "$" and "$end" in words[at:])
        end = words.index("$end", at)
        block = words[at + 1:end]
        at = end + 1
        if kind == "$scope":
            scopes.append(block[-1] if block else "")
        elif kind == "$upscope":
            del scopes[-1:]
        elif kind == "$var":
            sure(len(block) > 3 and re.fullmatch("[0-9]{1,6}", block[1]) and int(block[1]))
            size, identifier, name = int(block[1]), block[2], " ".join(block[3:])
            sure(sizes.setdefault(identifier, size) == size)
            parts = re.fullmatch(r"(.*?) ?\[(\d{1,6})(:\d{1,6})?\]", name)
            if parts:
                first = int(parts[2])
                last = int(parts[3][1:]) if parts[3] else first
                numbers = list(range(first, last - 1, -1)) if first >= last else list(range(first, last + 1))
                name = parts[1]
            else:
                numbers = list(range(size - 1, -1, -1))
            path = "." + ".".join(scopes + [name])
            for place, wanted in enumerate(names):
                if path.endswith("." + wanted):
                    sure(size == 1)
                    found[place].add((identifier, 0))
                for bit, number in enumerate(reversed(numbers)):
                    if len(numbers) == size and (path + "[%d]" % number).endswith("." + wanted.replace(" [", "[")):
                        found[place].add((identifier, bit))
    sure(all(len(each) == 1 for each in found))
    return [next(iter(each)) for each in found], sizes


# ---- the text ----


def text(path, options):
    with open(path, "rb") as file:
        data = file.read()
    wires = TWO if set(options) & set(OF_TWO) else FOUR if {"dout", "dout-bit"} & set(options) else THREE
    try:
        if data[:2] == b"\x1f\x8b":
            data = gzip.decompress(data)
            path = re.sub(r"\.gz$", "", path)
        names = [options.get(wire, wire.upper()) for wire in wires]
        if path.endswith(".raw"):
            bits = [int(options.get(wire + "-bit", place)) for place, wire in enumerate(wires)]
            only = not any(option.endswith("-bit") for option in options)
            samples, times = raw(data, int(options.get("width", 1)), bits, only, rate_of(options.get("rate", "")))
        elif path.endswith(".sr"):
            samples, times = session(data, names)
        else:
            samples, times = {"vcd": dump, "csv": table}[path.rsplit(".", 1)[1]](data, names)
    except (Unsure, zipfile.BadZipFile, zlib.error, EOFError, OSError, LookupError, ValueError, RuntimeError):
        raise Unsure from None
    # of three wires a sample counts where DCLK or LOAD has changed, or DOUT where that is kept; of two where any has
    kept = []
    before = 2 ** len(wires) - 1
    for at, sample in enumerate(samples):
        if sample != before and (wires == TWO or sample // 2 != before // 2):
            kept.append(at)
        before = sample
    levels = [samples[at] for at in kept]
    moments = [times[at] for at in kept] if times else []
    sure(None not in moments)
    moments = "".join("%s\n" % moment for moment in moments).encode() if moments and wires != TWO else None
    chips = int(options.get("chips", 1))
    if wires == FOUR or "stream" in options:
        return bytes([0, 1, chips] + [level + 16 * (wires == FOUR) for level in levels]), moments
    lines = ["0001%02X" % chips]
    if wires == TWO:
        lines = ["4001" + options.get("key", "00") + options.get("digits", "000000000000")]
    digits = ["%02X" % level for level in levels]
    lines += [("41" if wires == TWO else "01") + "".join(digits[at:at + 32]) for at in range(0, len(digits), 32)]
    return "".join(line + "\n" for line in lines).encode(), moments
