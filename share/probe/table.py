"""CSV: a header with the columns' names, then a row for each sample, its fields parted by commas, semicolons or tabs."""
import csv
import re
from itertools import islice
from operator import le

from . import times
from .refusal import Refused, listed, shown

SEPARATORS = (b",", b";", b"\t")
LEVELS = {b"0", b"1"}
UNDEFINED = (b"", b"x", b"z")
# names of a first column that holds times; libsigrok may name it by its unit, as it does the others, `logic`
TIMES = re.compile(rb"(?i)time.*|t|sec|seconds?|samples?")
PARTS = ("milli", "micro", "nano", "pico", "femto")
UNITS = dict(times.UNITS, **{name + "seconds": 3 * place for place, name in enumerate(PARTS, 1)})      # each with its decimal places
MOMENT = re.compile(rb"\d{4}-\d\d-\d\d[T ]\d\d:\d\d:\d\d[0-9.,:+Z-]*")     # a date and a time of day
LEVEL_OF = bytes.maketrans(b"01", b"\0\1")


def fields_of(line, separator):
    """The fields of a line. A field may stand in double quotes; a quote that isn't closed in its line is refused (with no place), and so
    is a carriage return that doesn't end it."""
    line = line[:-1] if line.endswith(b"\r") else line
    if b"\r" in line:
        raise Refused("a carriage return stands inside a line")
    if b'"' not in line:
        return [field.strip() for field in line.split(separator)]
    pattern = re.compile(rb' *(?:"((?:[^"]|"")*)" *|([^"%s]*))(%s|\Z)' % (separator, separator))
    fields = []
    at = 0
    while True:
        match = pattern.match(line, at)
        if not match:
            raise Refused("a quote isn't closed, or stands inside a field")
        fields.append((match[2] if match[1] is None else match[1].replace(b'""', b'"')).strip())
        at = match.end()
        if not match[3]:
            return fields


class Table:
    """A table that is read: where its columns are, and how far it is read."""

    def __init__(self, text, names):
        self.text, self.names = text, names
        self.line = 0               # of the line that was last read
        self.channels = None        # the names in a remark of libsigrok
        self.separator = self.columns = None
        self.width = 0
        self.timed = False          # whether the first column holds times
        self.time = None
        self.rows = 0
        self.rate = None            # the samplerate in a remark of libsigrok
        self.unit = 0               # of the times: the decimal places of a second
        self.step = None            # libsigrok's times: the first of them, which is that of one sample
        self.clock = None           # gives the time of a row, from its number, its first field and its line

    # ---- the header ----

    def header(self, line):
        """A line before the first row: a remark, or the header, or the first row where there is no header."""
        if not line.strip() or line[:1] in (b";", b"#") or re.fullmatch(rb"META samplerate: \d+\s*", line):
            remark = re.fullmatch(rb"; *Channels \(\d+/\d+\): *(.*?)\s*", line)
            self.channels = [name.strip() for name in remark[1].split(b",")] if remark else self.channels
            remark = re.fullmatch(rb"; *Samplerate: *(.*?)\s*", line)
            self.rate = times.rate_of(remark[1].decode("latin-1")) if remark else self.rate
            return
        choices = []
        for separator in SEPARATORS:
            try:
                fields = fields_of(line, separator)
            except Refused as refused:
                unclosed = refused
                continue
            named = self.by_header(fields)
            choices.append((named or self.by_place(fields), bool(named), len(fields), separator, fields))
        if not choices:
            raise unclosed
        best = max(choices, key=lambda choice: (choice[0] is not None, choice[2]))
        columns, named, self.width, self.separator, fields = best
        if columns is None:
            self.missing(fields)
        self.columns = columns
        if not named and all(fields[column] in LEVELS for column in columns.values()):    # there is no header
            self.row(fields)
        else:
            name = fields[0].decode("latin-1")
            of_time = TIMES.fullmatch(fields[0]) or b"logic" in fields and name in UNITS
            self.timed = bool(of_time) and 0 not in columns.values()
            within = re.search(r"[\[(]([a-z]+)[\])]", name)
            self.unit = UNITS.get(within[1] if within else name, None if name.lower().startswith("sample") else 0)

    def by_header(self, fields):
        """For each wire the number of its column, where the header has all their names, each once; else None."""
        if any(fields.count(name) != 1 for name in self.names.values()):
            return None
        return {wire: fields.index(name) for wire, name in self.names.items()}

    def by_place(self, fields):
        """For each wire the number of its column, by numbers from 1 in place of names, or by libsigrok's remark that names the
        channels, where the header has their unit, `logic`, or there is no header; else None."""
        columns = []
        if all(re.fullmatch(rb"[1-9]\d{0,5}", name) and int(name) <= len(fields) for name in self.names.values()):
            columns.append({wire: int(name) - 1 for wire, name in self.names.items()})
        logic = [place for place, field in enumerate(fields) if field == b"logic"]
        if not logic and not set(fields) - LEVELS:
            logic = list(range(len(fields)))
        channels = self.channels
        if channels and len(logic) == len(channels) and all(channels.count(name) == 1 for name in self.names.values()):
            columns.append({wire: logic[channels.index(name)] for wire, name in self.names.items()})
        if len(columns) == 2 and columns[0] != columns[1]:
            raise Refused("the wires' names are numbers of columns and also names of other channels; the channels are: %s"
                          % listed(self.channels))
        return columns[0] if columns else None

    def missing(self, fields):
        """Refuses, and says which column isn't there, or is there twice."""
        names = list(self.names.values())
        if all(re.fullmatch(rb"\d{1,6}", name) for name in names):
            names = [name for name in names if not 1 <= int(name) <= len(fields)]
            why = "there is no column %s; the columns are: %s"
        elif any(fields.count(name) > 1 for name in names):
            names = [name for name in names if fields.count(name) > 1]
            why = "more than one column is named %s; the header has: %s"
        else:
            names = [name for name in names if name not in fields]
            why = "no column is named %s; the header has: %s"
            if b"logic" in fields:
                why += "; columns may be named by their numbers from 1, as in --%s 1" % next(iter(self.text.wires))
            why += self.text.hint(fields + (self.channels or []))
        raise Refused(why % (shown(names[0]), listed(fields)), self.line)

    # ---- the rows ----

    def plain(self, block):
        """Takes a block of whole lines at once, where each is a row of the right width, whose levels are 0 or 1 and whose times don't
        go back. Else it takes nothing, and gives False."""
        separator = self.separator
        if not block.endswith(b"\n") or separator != b";" and (block[:1] == b";" or b"\n;" in block):
            return False
        block = block.replace(b"\r\n", b"\n").replace(separator + b" ", separator)
        if b"\r" in block:
            return False
        column = self.quoted(block) if b'"' in block else self.unquoted(block)
        if column is None:
            return False
        samples = count = 0
        for wire, place in self.columns.items():
            levels = column(place)
            count = len(levels)
            if not {"0", "1"}.issuperset(levels):
                return False
            samples += wire * int.from_bytes("".join(levels).encode().translate(LEVEL_OF), "little")
        moments = column(0) if self.timed else None
        if moments and not self.moments(moments):
            return False
        self.begin(moments[0] if moments else "")
        line, row = self.line + 1, self.rows
        self.text.take_all(samples.to_bytes(count, "little"), lambda at: line + at,
                           lambda at: self.clock(row + at, moments and moments[at], line + at))
        self.line += count
        self.rows += count
        return True

    def unquoted(self, block):
        """The columns of a block without quotes, as a function of their numbers; None where a row isn't as wide as the header."""
        marks = block.translate(None, bytes(byte for byte in range(256) if byte not in self.separator + b"\n"))
        if marks != (self.separator * (self.width - 1) + b"\n") * block.count(b"\n"):
            return None
        separator = self.separator.decode()
        fields = block[:-1].decode("latin-1").replace("\n", separator).split(separator)
        return lambda place: fields[place::self.width]

    def quoted(self, block):
        """The same for a block with quotes; None too where a quote isn't closed in its line, or stands inside a field."""
        lines = block[:-1].decode("latin-1").split("\n")
        try:
            rows = list(csv.reader(lines, delimiter=self.separator.decode(), strict=True))
        except csv.Error:
            return None
        if len(rows) != len(lines) or set(map(len, rows)) != {self.width} or '"' in "".join(map("".join, rows)):
            return None
        return lambda place: [row[place] for row in rows]

    def moments(self, moments):
        """Whether the times of many rows don't go back."""
        try:
            moments = list(map(float, moments))
        except ValueError:
            if set(map(len, moments)) != {len(moments[0])} or not all(map(MOMENT.fullmatch, map(str.encode, moments))):
                return False
            moments = list(map(str.encode, moments))
        if self.time is not None and (type(self.time) is not type(moments[0]) or not self.time <= moments[0]):
            return False
        if isinstance(self.time, bytes) and len(self.time) != len(moments[0]) or not all(map(le, moments, islice(moments, 1, None))):
            return False
        self.time = moments[-1]
        return moments[0] == moments[0]

    def row(self, fields):
        """One row."""
        if len(fields) != self.width:
            raise Refused("the row has %d fields, and the header %d" % (len(fields), self.width), self.line)
        if self.timed:
            self.moment(fields[0])
        sample = sum(wire * self.level(fields[column], self.names[wire]) for wire, column in self.columns.items())
        moment = fields[0].decode("latin-1")
        self.begin(moment)
        self.text.take(sample, lambda: self.line, lambda: self.clock(self.rows, moment, self.line))
        self.rows += 1

    def level(self, field, name):
        """The level in one field."""
        if field in LEVELS:
            return int(field)
        if field.lower() in UNDEFINED:
            raise Refused("%s is undefined (%s)" % (shown(name), shown(field) or "empty"), self.line)
        raise Refused("%s has '%s', which is no level" % (shown(name), shown(field)), self.line)

    def moment(self, field):
        """The time of a row: a number, or a date and a time of day; it isn't before that of the row before."""
        try:
            time = float(field if self.separator == b"," else field.replace(b",", b"."))
        except ValueError:
            time = field if MOMENT.fullmatch(field) else None
        if time is None or time != time:
            raise Refused("'%s' is no time" % shown(field), self.line)
        if self.time is not None:
            if isinstance(time, bytes) != isinstance(self.time, bytes) or isinstance(time, bytes) and len(time) != len(self.time):
                raise Refused("the time '%s' isn't written as the one before it" % shown(field), self.line)
            if time < self.time:
                raise Refused("the rows aren't in the order of time: '%s' comes after a later one" % shown(field), self.line)
        self.time = time

    # ---- times ----

    def begin(self, moment):
        """Before the first row: how the times are told. libsigrok's own, where it says the samplerate, are whole numbers of a unit that
        isn't always named, each too late by one sample, and rounded: what they count is samples."""
        if self.rows:
            return
        if self.rate:
            self.step = int(moment) if self.timed and re.fullmatch("[0-9]{1,18}", moment) else 0
            self.clock = self.of_step if self.step else lambda row, moment, line: self.rate.text(row)
        elif self.timed and self.unit is not None and not MOMENT.fullmatch(moment.encode("latin-1")):
            self.clock = self.of_column
        self.text.timed(self.clock is not None)

    def of_step(self, row, moment, line):
        """The time by libsigrok's own, which counts samples from 1."""
        number, rest = divmod(int(moment), self.step) if re.fullmatch("[0-9]{1,18}", moment) else (0, 1)
        if rest:
            raise Refused("the time '%s' is no multiple of the first one" % shown(moment), line)
        return self.rate.text(number - 1)

    def of_column(self, row, moment, line):
        """The time as it is written."""
        text = times.seconds(moment if self.separator == b"," else moment.replace(",", "."), self.unit)
        if text is None:
            raise Refused("'%s' is no time" % shown(moment), line)
        return text

    # ---- all of it ----

    def take(self, block):
        """The lines of a block, one by one."""
        for line in block[:-1].split(b"\n") if block.endswith(b"\n") else block.split(b"\n"):
            self.line += 1
            try:
                if self.columns is None:
                    self.header(line)
                elif line.strip() and not (line[:1] == b";" and self.separator != b";"):
                    self.row(fields_of(line, self.separator))
            except Refused as refused:
                raise Refused(refused.why, self.line) from None


def read(source, text, names):
    """Reads a recording; `names` has the wires' names."""
    table = Table(text, names)
    for block in source.cut((b"\n",)):
        while table.columns is None and block:
            end = block.find(b"\n") + 1 or len(block)
            table.take(block[:end])
            block = block[end:]
        if block and not table.plain(block):
            table.take(block)
    if table.columns is None:
        raise Refused("there is no header with the wires' names", max(table.line, 1))
    if not table.rows:
        raise Refused("there is a header and no row", table.line)
