"""A recording as a whole: which format it has, and the reading of it."""
import importlib
import os
import re

from .refusal import Refused
from .source import BOM, opened

READERS = {"vcd": "vcd", "csv": "table", "raw": "raw", "sr": "sigrok"}     # modules of probe/
PLACES = {"vcd": "line", "csv": "line", "raw": "byte offset", "sr": "byte offset"}
ENDINGS = {".vcd": "vcd", ".csv": "csv", ".raw": "raw", ".bin": "raw", ".sr": "sr"}
ZIP, GZIP = b"PK\3\4", b"\x1f\x8b\x08"
META = b"META samplerate: "
CAPTURE = re.compile(rb"00010[1-8]\n")
STREAM = re.compile(rb"\x00\x01[\x01-\x08]")
UNPACKED = "watch takes it unpacked and without an option of import"
KINDS = ((b"<SALEAE>", "a Saleae binary export"), (GZIP, "gzip packed by gzip"), (b"\xff\xfe", "text in UTF-16"),
         (b"\xfe\xff", "text in UTF-16"), (b"\xfd7zXZ\0", "packed by xz"), (b"BZh", "packed by bzip2"),
         (b"\x28\xb5\x2f\xfd", "packed by zstd"), (b"7z\xbc\xaf", "a 7z archive"), (ZIP, "a zip"))
ENOUGH = 64     # bytes at the front that tell a format


def told(file, wanted):
    """The format that was asked for, or that the file's name tells, or None. Bits and widths are of raw recordings alone."""
    by_name = ENDINGS.get(os.path.splitext(file)[1].lower())
    return wanted.form or by_name or ("raw" if wanted.width or wanted.others or wanted.rate else None)


def enough(head, form):
    """Whether the first bytes of a live recording tell what it is. Of raw samples the first do that aren't the front of a mark."""
    marks = [mark for mark, _ in KINDS] + [META]
    return len(head) >= ENOUGH or form == "raw" and head and not any(mark.startswith(head) for mark in marks)


def seen(head):
    """The format by the first bytes: a zip, or by the first that isn't white. A VCD begins with a dollar sign, and no text begins with
    a byte below 8."""
    if head.startswith(ZIP):
        return "sr"
    head = head[len(BOM) * head.startswith(BOM):].lstrip()
    if head.startswith(b"$") or re.match(META + rb"\d+\s+\$", head):
        return "vcd"
    return "raw" if b"" < head[:1] < b"\x08" else "csv"


def recognised(head, form, anything):
    """Refuses what is none of the formats, by what it is. Where any bytes are samples, two or three alone tell nothing."""
    if form == "sr":
        if not head.startswith(ZIP):
            raise Refused("it isn't a sigrok session (.sr), which is a zip")
        return
    for start, kind in KINDS:
        if head.startswith(start) and (len(start) > 3 or not anything):
            raise Refused("it is %s; export it as VCD, CSV, raw or a sigrok session" % kind)
    if form == "raw" and head.startswith(META):
        raise Refused("it begins with a line of text that sigrok-cli wrote, META samplerate; take that off, or import a session (.sr)")
    if b"serialization::archive" in head[:64]:
        raise Refused("it is a Saleae capture (.logicdata); export it as VCD or CSV")
    if form == "csv" and CAPTURE.match(head):
        raise Refused("it is a capture text, and no recording; %s" % UNPACKED)
    if form in ("vcd", "csv") and b"\0" in head:
        raise Refused("it is binary, and not %s" % form.upper())


class Recording:
    """A recording that is opened, and its format known. Where it is live, all that has come is handed on before more is waited for."""

    def __init__(self, file, wanted, live=False):
        self.wanted = wanted
        packed = file.lower().endswith(".gz")
        self.form = told(file[:-3] if packed else file, wanted)
        try:
            self.whole = self.source = opened(file, (lambda head: enough(head, self.form)) if live else None)
            if packed or self.source.head.startswith(GZIP):
                self.source = self.source.unpacked()
            anything = self.form == "raw" and (wanted.others or (wanted.width or 1) > 1)     # any bytes are samples
            if self.form is None or wanted.form is None and self.source.head.startswith(ZIP) and not anything:
                self.form = seen(self.source.head)
            recognised(self.source.head, self.form, anything)
            in_doubt = self.form == "raw" and wanted.form is None and not anything and "load" in wanted.text.wires
            if in_doubt and STREAM.match(self.source.head):
                raise Refused("it begins as a raw stream does; %s, or say --raw if it is a recording" % UNPACKED)
        except Refused as refused:
            refused.form = self.form
            raise
        wanted.goes_with(self.form)
        self.source.idle = wanted.text.hand_on if live else None

    def read(self):
        """Reads it into the text that is wanted."""
        wanted = self.wanted
        more = (wanted.width, wanted.bits, wanted.others, wanted.rate) if self.form == "raw" else (wanted.names,)
        try:
            wanted.text.begin()
            importlib.import_module("probe." + READERS[self.form]).read(self.source, wanted.text, *more)
        except Refused as refused:
            refused.form = self.form
            raise
        finally:
            for source in (self.whole, self.source):
                source.progress.end()
