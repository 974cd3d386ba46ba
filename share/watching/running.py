"""The command's own plain programs, run: `zhaqsumir replay -`, `screen -`, `watch -`. What comes in is fed to them by a thread of its
own, so that lines are shown as they come."""
import os
import queue
import subprocess
import sys
import threading

COMMAND = os.path.join(os.path.dirname(os.path.dirname(os.path.dirname(os.path.abspath(__file__)))), "zhaqsumir")
AT_ONCE = 1 << 16


class Program:
    """A program that runs. `source` is what it reads, or None where it is fed. What it says, as that it is built, is passed on as it
    comes; a refusal is kept, since it must stand below the lines that are shown."""

    def __init__(self, words, source=None):
        stdin = subprocess.PIPE if source is None else source
        self.process = subprocess.Popen([COMMAND, *words, "-"], stdin=stdin, stdout=subprocess.PIPE, stderr=subprocess.PIPE, bufsize=0)
        self.fed = source is None
        self.out = self.process.stdout.fileno()
        self.refusal = b""
        self.sayer = threading.Thread(target=self.said, daemon=True)
        self.sayer.start()

    def said(self):
        """Passes on what it says, and keeps a refusal."""
        for line in iter(self.process.stderr.readline, b""):
            if line.startswith(b"zhaqsumir: refusal"):
                self.refusal = line
            else:
                tell(line)

    def tell_refusal(self):
        """The refusal, if there is one; all else was said before it."""
        self.sayer.join()
        tell(self.refusal)

    def feed(self, data):
        """Hands bytes on; False where it takes no more."""
        try:
            while data and self.fed:
                data = data[os.write(self.process.stdin.fileno(), data):]
        except BrokenPipeError:
            self.fed = False
        return self.fed

    def end(self):
        """There is nothing more to be fed."""
        try:
            self.process.stdin.close()
        except OSError:
            pass

    def blocks(self):
        """What it writes."""
        return iter(lambda: os.read(self.out, AT_ONCE), b"")

    def lines(self):
        """The lines that it writes, in lists of those that came together."""
        rest = ""
        for block in self.blocks():
            *whole, rest = (rest + block.decode("ascii")).split("\n")
            yield whole


class Words:
    """The words of each LOAD rise, by a second run of `watch` beside that of the screen. A refusal is told by the first alone."""

    def __init__(self, events):
        self.events = events
        self.program = Program(["watch"])
        self.rises = queue.Queue(1000)
        threading.Thread(target=self.read, daemon=True).start()

    def read(self):
        """All lines 10, as many in a list as there are chips, where there are times to be told; None where it ends, after what it
        said."""
        words = []
        for lines in self.program.lines():
            for line in lines:
                if line.startswith("10"):
                    words.append(int(line[4:], 16))
                    if len(words) == self.events.chips:
                        if self.events.known:
                            self.rises.put(words)
                        words = []
        self.program.sayer.join()
        self.rises.put(None)


class Feeder(threading.Thread):
    """Feeds programs, by a function that gets the function that does it. Its exception, if there is one, is in `error`."""

    def __init__(self, work, programs):
        super().__init__(daemon=True)
        self.work, self.programs = work, programs
        self.error = None

    def feed(self, data):
        """To each program; whether the first one takes more."""
        return [program.feed(data) for program in self.programs][0]

    def run(self):
        try:
            self.work(self.feed)
        except Exception as error:
            self.error = error
        for program in self.programs:
            program.end()


def tell(line):
    """To standard error, if it can be written."""
    try:
        os.write(2, line)
    except OSError:
        pass


def put(text):
    """To standard output, at once."""
    data = text.encode() if isinstance(text, str) else text
    while data:
        data = data[os.write(sys.stdout.fileno(), data):]
