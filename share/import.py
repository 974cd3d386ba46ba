#!/usr/bin/env python3
"""Turns a logic probe's recording into capture text or a raw stream: the command `zhaqsumir import`. Nothing here is proved.

    import.py [--format vcd|csv|raw|sr] [--raw] [--din NAME] [--dclk NAME] [--load NAME] [--dout NAME] [--chips N] [--rate HZ]
              [--width BYTES] [--din-bit BIT] [--dclk-bit BIT] [--load-bit BIT] [--dout-bit BIT] [--stream] [--out FILE] FILE
    import.py [--format vcd|csv|raw|sr] [--raw] [--two-wires] [--scl NAME] [--sda NAME] [--key CODE] [--digits SIX]
              [--width BYTES] [--scl-bit BIT] [--sda-bit BIT] [--out FILE] FILE

The text goes to standard output, or with its times to files, when the whole recording is read; a refused recording gives none. The
readers stand in probe/, one for each format; they read in a stream. Exit status 0, or 2 for bad usage and for a recording that can't be
read.
"""
import os
import signal
import sys

if sys.version_info < (3, 8):
    sys.stderr.write("zhaqsumir: import needs Python 3.8 or later\n")
    sys.exit(2)
sys.path.insert(0, os.path.dirname(os.path.abspath(__file__)))
sys.dont_write_bytecode = True

from probe import recording
from probe.options import FLAGS, VALUED, Wanted, arguments
from probe.output import Files, Spool
from probe.refusal import say, why_not
from probe.source import named
from probe.text import LONGEST

TOO_LONG = "the text is longer than %s bytes: replay, screen and tally refuse it (11), and watch takes it" % format(LONGEST, ",")


def imported(file, wanted, out):
    """Writes the text or stream of a recording, and says what there is to be said of it."""
    text = wanted.text
    text.out = out.take
    recording.Recording(file, wanted).read()
    said = text.remarks()
    if not text.stream and text.length() > LONGEST:
        said.append(TOO_LONG)
    text.hand_on(True)
    for line in said:
        say("%s: %s" % (named(file), line))
    out.finish()


def stop(out):
    """Where it is stopped, no file is left behind."""
    def stopped(number, frame):
        out.drop()
        signal.signal(number, signal.SIG_DFL)
        os.kill(os.getpid(), number)
    for number in (signal.SIGINT, signal.SIGTERM, signal.SIGHUP):
        signal.signal(number, stopped)


def main():
    signal.signal(signal.SIGPIPE, signal.SIG_DFL)
    signal.signal(signal.SIGINT, signal.SIG_DFL)
    file = "-"
    out = Spool()
    try:
        given, file = arguments(sys.argv[1:], FLAGS, VALUED, "import")
        wanted = Wanted(given)
        if "out" in given:
            out = Files(given["out"], file)
            stop(out)
            out.begin()
            wanted.text.wants_times = True
        imported(file, wanted, out)
        return
    except Exception as error:
        why = why_not(error, named(file), recording.PLACES)
    out.drop()
    say(why)
    os._exit(2)


main()
