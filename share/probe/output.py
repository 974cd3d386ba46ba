"""Where an imported text or stream goes: to standard output, or with its times to files. It comes whole, when all is read, or not at
all."""
import os
import shutil
import stat
import sys

from .refusal import BadUsage, Unwritten, shown

IN_MEMORY = 1 << 21     # bytes; more are kept in a temporary file until all are there


class Spool:
    """Bytes for standard output: in memory, and from some number on in a temporary file."""

    def __init__(self):
        self.parts = []
        self.size = 0
        self.file = None

    def take(self, data, samples, times):
        """What comes next."""
        self.parts.append(data)
        self.size += len(data)
        if self.size > IN_MEMORY:
            self.spill()

    def spill(self):
        """What is in memory goes to the file."""
        try:
            if self.file is None:
                import tempfile     # here alone: it takes long to load
                self.file = tempfile.TemporaryFile()
            self.file.write(b"".join(self.parts))
        except OSError as error:
            raise Unwritten("the output can't be kept in a temporary file: %s" % error.strerror) from None
        self.parts, self.size = [], 0

    def finish(self):
        """All is there."""
        try:
            out = sys.stdout.buffer
            if self.file is not None:
                self.file.seek(0)
                shutil.copyfileobj(self.file, out, 1 << 16)
            out.write(b"".join(self.parts))
            sys.stdout.close()
        except OSError as error:
            raise Unwritten("the output can't be written: %s" % error.strerror) from None

    def drop(self):
        """Nothing is written."""


class Files:
    """The file that --out names, and beside it the one with the times, where there are any. Both are written under other names, and get
    their own when all is there; a file of times that an earlier import left there goes."""

    def __init__(self, path, recording):
        if path == "-" or not os.path.basename(path):
            raise BadUsage("--out takes the name of a file")
        self.path = os.path.realpath(path)
        self.name = shown(path, 4096)
        self.times = self.path + ".times"
        self.new = {}           # the files being written, by what they will be
        for place in (self.path, self.times):
            self.allowed(place, recording)
        self.body = self.moments = None

    def begin(self):
        """Makes the first of them."""
        self.body = self.opened(self.path)

    def allowed(self, place, recording):
        """Refuses to replace what is no file, or the recording itself."""
        try:
            status = os.stat(place)
        except OSError:
            return
        if not stat.S_ISREG(status.st_mode):
            raise Unwritten("%s can't be written: it isn't a file" % shown(place, 4096))
        if recording != "-" and os.path.exists(recording) and os.path.samestat(status, os.stat(recording)):
            raise BadUsage("--out %s would replace the recording itself" % self.name)

    def opened(self, place):
        """A new file, for what is to be at a place."""
        folder, name = os.path.split(place)
        path = os.path.join(folder, ".%s.%d" % (name, os.getpid()))
        try:
            self.new[place] = path
            return open(path, "xb")
        except OSError as error:
            del self.new[place]
            raise self.unwritten(error) from None

    def unwritten(self, error):
        """What an error says."""
        return Unwritten("%s can't be written: %s" % (self.name, error.strerror))

    def take(self, data, samples, times):
        """What comes next."""
        try:
            self.body.write(data)
            if times:
                self.moments = self.moments or self.opened(self.times)
                self.moments.write("".join(["%s\n" % time for time in times]).encode())
        except OSError as error:
            raise self.unwritten(error) from None

    def finish(self):
        """All is there: the files get their names, that of the times first."""
        try:
            for file in filter(None, (self.body, self.moments)):
                file.close()
            if self.moments is None and os.path.exists(self.times):
                os.unlink(self.times)
            for place in (self.times, self.path):
                if place in self.new:
                    os.rename(self.new[place], place)
                    del self.new[place]
        except OSError as error:
            raise self.unwritten(error) from None

    def drop(self):
        """Nothing is left behind."""
        for path in self.new.values():
            try:
                os.unlink(path)
            except OSError:
                pass
        self.new = {}
