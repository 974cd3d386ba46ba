"""One file looked into: what it is, what feeds the program, and the rows that its lines give."""
import os
import re

from probe.recording import PLACES
from probe.refusal import BadUsage, Refused, Unreadable, WrongTimes, say, why_not
from probe.source import named, stream_of
from watching.beside import Clock, refusal
from watching.events import Events
from watching.feeding import feed_recording, feed_stream, is_recording
from watching.moments import Moments, Untimed
from watching.running import Feeder, Program, put

from .account import Account
from .lines import WHERE, Lines
from .till import Wants

HEAD = 6                    # bytes that tell what a file is
LINE = re.compile(rb"1[0-8F][0-9A-F]|30[0-9A-F]")
CAPTURE = b"0001"
NO_DOUT = "no DOUT is recorded in it, so nothing is known of what the till read"
NO_LINES = "its lines don't tell whether DOUT was recorded and the keypad on, so nothing is known of what the till read"
NO_TEXT = "it is a capture text, which has no DOUT; a recording with DOUT, or a raw stream with it, tells what the till read"
NOTHING = "neither DCLK, LOAD nor DOUT ever changes in it: are the wires right?"
UNKNOWN = "it is no recording, no raw stream and no lines of watch; of a probe's recording, --format says how it is written"
QUIET = "no interrupt was seen, and no code read"


class Ahead:
    """A source of which the first bytes are looked at before it is read. Of a raw stream, which may be live, the first alone is."""

    def __init__(self, source):
        self.source = source
        self.head = b""
        while len(self.head) < HEAD and self.head[:1] != b"\0":
            data = self.more(HEAD)
            if not data:
                break
            self.head += data

    def more(self, count):
        """The source's next bytes."""
        try:
            return self.source.read1(count)
        except OSError as error:
            raise Unreadable(error.strerror or "an error of the system") from None

    def read1(self, count):
        """The next bytes."""
        data, self.head = self.head, b""
        return data or self.more(count)


class Section:
    """One file. After `read`, `failed` says whether it couldn't be read to its end, and `counted` whether there is something to count."""

    def __init__(self, file, given, apart):
        """`apart` is whether a section stands before it."""
        self.file, self.given, self.apart = file, given, apart
        self.name = named(file)
        self.account = Account()
        self.events = Events()
        self.failed = self.counted = False
        self.clock = Clock(self.events, None)
        self.refused = None         # a line 1F
        self.head = None            # what it is, in words; None once that is written
        self.nothing = NO_DOUT      # what to say where no DOUT is known

    def read(self):
        """Writes its rows as they come. What can't be read is told, and what came before it stands."""
        try:
            self.shown(*self.opened())
        except (Refused, WrongTimes) as error:
            self.counted = self.counted or bool(self.events.douts)
            self.fail(why_not(error, self.name, dict(PLACES, **{WHERE: "line"})))
        if self.counted:
            self.begin()
            if not sum(self.account.counts.values()):
                put("%s\n" % QUIET)
            for line in self.account.remarks(self.events.douts):
                put("%s\n" % line)

    def fail(self, why):
        """It couldn't be read to its end."""
        self.failed = True
        say(why)

    # ---- what it is ----

    def opened(self):
        """What feeds the program, or None, and the lines where there is no program."""
        of_import = set(self.given) - {"times"}
        if is_recording(self.file, of_import):
            if "times" in self.given:
                raise BadUsage("--times goes with a stream; a recording has its own times")
            if of_import and os.path.isfile(self.file) and LINE.match(Ahead(stream_of(self.file)).head):
                raise Refused("it is what watch wrote, and options of import don't go with it")
            wanted = Wants(self.given)
            wanted.text.wants_times = True
            self.head, self.nothing = wanted.dout(), NOTHING
            return feed_recording(self.file, wanted, self.events), None
        source = Ahead(stream_of(self.file))
        if source.head[:1] == b"\0":
            self.head = "a raw stream"
            return feed_stream(source, self.moments(), self.events), None
        if "times" in self.given:
            raise BadUsage("--times goes with a raw stream")
        if LINE.match(source.head):
            self.head, self.nothing = "lines of watch", NO_LINES
            return None, Lines(source)
        raise Refused(NO_TEXT if source.head.startswith(CAPTURE) else UNKNOWN if source.head else "it is empty")

    def moments(self):
        """The times of a stream."""
        beside = self.file + ".times"
        path = self.given.get("times", beside if self.file != "-" and os.path.isfile(beside) else None)
        return Moments(path) if path else Untimed()

    # ---- what is shown ----

    def begin(self):
        """The name, before the first row."""
        if self.head:
            put("%s%s: %s\n" % ("\n" * self.apart, self.name, self.head))
            self.head = None

    def shown(self, work, lines):
        """The rows."""
        program = lines or Program(["watch"])
        if work:
            feeder = Feeder(work, [program])
            feeder.start()
        for together in program.lines():
            self.rows(together)
        if work and not self.ended(program):
            feeder.join()
            if isinstance(feeder.error, OSError):
                raise Unreadable(feeder.error.strerror or "an error of the system")
            if feeder.error:
                raise feeder.error
        if self.refused:
            self.counted = self.counted or bool(self.events.douts)
            self.fail("%s: %s" % (self.name, refusal("watch")(self.refused)))
        elif not self.failed:
            self.counted = self.account.tells() if lines else bool(self.events.douts)
            if not self.counted:
                raise Refused(self.nothing)

    def ended(self, program):
        """The status with which the program ended. It has said itself why it failed, if it did."""
        program.sayer.join()
        status = program.process.wait()
        self.failed = bool(status) and not self.refused
        return status

    def rows(self, lines):
        """Those of lines that came together."""
        rows = []
        for line in lines:
            time = self.clock.of(line)
            row = self.account.row(line)
            if line.startswith("1F"):
                self.refused = line
            elif row:
                rows.append("%s%s\n" % (self.clock.column(time), row))
        if rows:
            self.begin()
            put("".join(rows))
            self.counted = bool(self.events.douts) or self.account.tells()
