"""sigrok's session files (.sr): a zip with a file `metadata`, and the samples in files logic-1-1, logic-1-2, .., as raw ones."""
import configparser
import re
import zipfile
import zlib

from . import raw
from .refusal import Refused, listed, shown
from .source import BLOCK, Progress
from .times import rate_of

VERSIONS = (b"1", b"2")
DAMAGED = "the sigrok session is damaged or cut off"


class Samples:
    """The samples of a session, one file after another."""

    def __init__(self, archive, parts, progress):
        self.archive, self.parts, self.progress = archive, parts, progress

    def blocks(self):
        for part in self.parts:
            with self.archive.open(part) as file:
                block = file.read(BLOCK)
                while block:
                    self.progress.step(len(block))
                    yield block
                    block = file.read(BLOCK)


def read(source, text, names):
    """Reads a session; `names` has the wires' names."""
    file = source.seekable()
    try:
        with zipfile.ZipFile(file) as archive:
            files = {info.filename: info for info in archive.infolist()}
            if "metadata" not in files or "version" not in files:
                kind = "a Saleae capture (.sal); export it as CSV" if "meta.json" in files else "a zip, and no sigrok session (.sr)"
                raise Refused("it is %s" % kind)
            if len(files) != len(archive.infolist()) or max(files[name].file_size for name in ("metadata", "version")) > 1 << 20:
                raise Refused(DAMAGED)
            if archive.read("version").strip() not in VERSIONS:
                raise Refused("the sigrok session is of a version that isn't known")
            device = settings(archive.read("metadata"))
            parts = parts_of(device.get("capturefile", "logic-1"), files)
            width, bits = places(device, text, names)
            source.progress = Progress(sum(files[part].file_size for part in parts))
            rate = rate_of(device.get("samplerate", ""))
            raw.read(Samples(archive, parts, source.progress), text, width, bits, True, rate)
    except (zipfile.BadZipFile, EOFError, zlib.error, NotImplementedError, RuntimeError, OSError, ValueError):
        raise Refused(DAMAGED) from None


def settings(metadata):
    """The part of the metadata about the device."""
    parser = configparser.RawConfigParser(strict=True)
    try:
        parser.read_string(metadata.decode("utf-8"))
        return dict(parser["device 1"])
    except (UnicodeDecodeError, configparser.Error, KeyError):
        raise Refused("the sigrok session's metadata can't be read") from None


def parts_of(name, files):
    """The files with samples, in their order."""
    if name in files:
        return [name]
    numbers = sorted(int(file[len(name) + 1:]) for file in files if re.fullmatch(re.escape(name) + r"-[1-9]\d{0,8}", file))
    if not numbers or numbers != list(range(1, len(numbers) + 1)):
        raise Refused("the sigrok session has no samples, or a part of them is missing")
    return ["%s-%d" % (name, number) for number in numbers]


def places(device, text, names):
    """How many bytes a sample takes, and the bits of the wires."""
    channels = {}
    for key, value in device.items():
        match = re.fullmatch(r"probe([1-9]\d{0,3})", key)
        if match:
            channels.setdefault(value.strip(), []).append(int(match[1]) - 1)
    width = device.get("unitsize", "1")
    if not re.fullmatch(r"[1-9]\d{0,2}", width):
        raise Refused("the sigrok session's metadata can't be read")
    bits = {}
    for wire, name in names.items():
        found = channels.get(name.decode("utf-8", "replace"), [])
        if len(found) != 1:
            number, hint = ("more than one channel", "") if found else ("no channel", text.hint(map(str.encode, channels)))
            raise Refused("%s is named %s; there are: %s%s" % (number, shown(name), listed(channels), hint))
        bits[wire] = found[0]
        if bits[wire] >= 8 * int(width):
            raise Refused("channel %s is no bit of a sample of %s bytes" % (shown(name), width))
    return int(width), bits
