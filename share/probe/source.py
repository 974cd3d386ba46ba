"""Where a recording comes from: a file or standard input, as it is or packed by gzip, read block by block; and how far it is read."""
import gzip
import io
import os
import stat
import sys
import time
import zlib

from .refusal import Refused, Unreadable, shown

BLOCK = 1 << 18
LONGEST_LINE = 1 << 20
BOM = b"\xef\xbb\xbf"      # before a text in UTF-8, by some programs
DAMAGED = "the gzip file is damaged or cut off"


class Source:
    """The bytes of a recording. `name` is for messages; `head` are the first bytes. Where the recording is live, what has come is handed
    on at once; `enough` says then whether the first bytes tell what it is, and `idle` is called before more is waited for."""

    def __init__(self, name, stream, progress, enough=None):
        self.name, self.stream, self.progress, self.enough = name, stream, progress, enough
        self.idle = None
        self.head = self.ahead = self.more(4096)
        while enough and not enough(self.head):
            data = self.more(4096)
            if not data:
                break
            self.head = self.ahead = self.head + data

    def more(self, count):
        """The stream's next bytes, fewer at its end, or where it is live."""
        if self.idle:
            self.idle()
        try:
            data = self.stream.read1(count) if self.enough else self.stream.read(count)
        except gzip.BadGzipFile:
            raise Refused(DAMAGED) from None
        except OSError as error:
            raise Unreadable(error.strerror or "an error of the system") from None
        except (EOFError, zlib.error):
            raise Refused(DAMAGED) from None
        self.progress.step(len(data))
        return data

    def read(self, count):
        """The next bytes, fewer at the end. (gzip's reader calls this too.)"""
        data, self.ahead = self.ahead[:count], self.ahead[count:]
        return data if len(data) == count or data and self.enough else data + self.more(count - len(data))

    def unpacked(self):
        """The bytes that gzip packed. How far they are read is counted in the packed ones."""
        return Source(self.name, gzip.GzipFile(fileobj=self), Progress(None), self.enough)

    def seekable(self):
        """A file of the same bytes in which one can go back and forth."""
        if isinstance(self.stream, io.BufferedReader) and self.stream.seekable():
            self.stream.seek(0)
            return self.stream
        import tempfile     # here alone: it takes long to load
        try:
            copy = tempfile.TemporaryFile()
            for block in self.blocks():
                copy.write(block)
            copy.seek(0)
        except OSError as error:
            raise Unreadable("it can't be copied to a temporary file: %s" % error.strerror) from None
        return copy

    def blocks(self):
        """The bytes in blocks."""
        block = self.read(BLOCK)
        while block:
            yield block
            block = self.read(BLOCK)

    def cut(self, marks):
        """The bytes in blocks that end after one of the marks; the last block may end without one."""
        rest = b""
        if self.ahead.startswith(BOM):
            self.ahead = self.ahead[len(BOM):]
        for block in self.blocks():
            end = max(block.rfind(mark) for mark in marks) + 1
            if end:
                yield rest + block[:end]
                rest = block[end:]
            else:
                rest += block
            if len(rest) > LONGEST_LINE:
                raise Refused("a line is longer than %s bytes: this is no text" % format(LONGEST_LINE, ","))
        if rest:
            yield rest


def stream_of(file):
    """A file, or - for standard input, opened to be read."""
    try:
        if file == "-":
            if sys.stdin is None:
                raise Unreadable("it is closed")
            return sys.stdin.buffer
        if os.path.isdir(file):
            raise Unreadable("it is a folder")
        return open(file, "rb")
    except FileNotFoundError:
        raise Unreadable("no such file") from None
    except PermissionError:
        raise Unreadable("no permission") from None
    except OSError as error:
        raise Unreadable(error.strerror or "an error of the system") from None
    except ValueError:
        raise Unreadable("no such file") from None


def opened(file, enough=None):
    """The recording in a file, or - for standard input."""
    stream = stream_of(file)
    try:
        status = os.fstat(stream.fileno())
    except OSError as error:
        raise Unreadable(error.strerror or "an error of the system") from None
    size = status.st_size if stat.S_ISREG(status.st_mode) else 0
    return Source(named(file), stream, Progress(None if enough else size), enough)


def named(file):
    """A file's name for messages."""
    return "standard input" if file == "-" else shown(file, 4096)


class Progress:
    """A line on standard error that says how much is read, where that is a terminal and the work takes over a second."""

    def __init__(self, size):
        self.size = size
        self.done = 0
        self.next = time.monotonic() + 1 if size is not None and sys.stderr is not None and sys.stderr.isatty() else None
        self.written = False

    def step(self, count):
        """So many bytes more."""
        self.done += count
        if self.next is None or time.monotonic() < self.next:
            return
        part = "%d %% read" % (100 * self.done // self.size) if self.size else "%.1f MB read" % (self.done / 1e6)
        sys.stderr.write("\rzhaqsumir: %s \b" % part)
        sys.stderr.flush()
        self.written = True
        self.next = time.monotonic() + 0.25

    def end(self):
        """The line goes."""
        if self.written:
            sys.stderr.write("\r\033[K")
            sys.stderr.flush()
            self.written = False
