#!/usr/bin/env python3
"""The command `zhaqsumir reads`: how many codes the till got, and whether one was read twice. Nothing here is proved; what was read is what
the lines 15 to 18 of the program `watch` say.

    reads.py [--times FILE] [options of import for three wires] FILE..

A file is a recording with the last chip's DOUT, a raw stream with it, or what `watch` wrote of one; recordings and streams are fed to
the plain command, `zhaqsumir watch -`. Exit status 0; 1 where a code was read again without a new interrupt; 2 for bad usage, and where
what the till got isn't known: a file that can't be read to its end or has no DOUT, a DOUT that isn't the latch later than at the start, or a
till that was running.
"""
import os
import signal
import sys

if sys.version_info < (3, 8):
    sys.stderr.write("zhaqsumir: this needs Python 3.8 or later\n")
    sys.exit(2)
sys.path.insert(0, os.path.dirname(os.path.abspath(__file__)))
sys.dont_write_bytecode = True

from probe.options import FLAGS, OPTIONS, VALUED, options_and_files
from probe.ch450 import TwoWires
from probe.recording import PLACES
from probe.refusal import BadUsage, say, why_not
from reading.section import Section
from reading.totals import totals
from watching.running import put

OF_TWO = set(OPTIONS[TwoWires])
OF_IMPORT = {"out", "stream"}


def options_of(words):
    """The options as given, and the files."""
    given, files = options_and_files(words, FLAGS, VALUED | {"times"})
    for name in given:
        if name in OF_TWO:
            raise BadUsage("--%s is for the two wires of a CH450: import it, and show it with ch450" % name)
        if name in OF_IMPORT:
            raise BadUsage("--%s goes with import" % name)
    if not files:
        raise BadUsage("reads takes one file or more")
    if "times" in given and len(files) > 1:
        raise BadUsage("--times goes with one file; of several each may have its own beside it, as FILE.times")
    if (files + [given.get("times")]).count("-") > 1:
        raise BadUsage("standard input is named twice, and can be read once")
    return given, files


def looked_into(given, files):
    """Each file, and the totals; the exit status."""
    counted = []
    failed = 0
    for file in files:
        section = Section(file, given, bool(counted))
        section.read()
        failed += section.failed
        if section.counted:
            counted.append((section.name, section.account.counts))
    if counted:
        put("\n" + "".join("%s\n" % line for line in totals(counted, failed)))
    unknown = failed or any(counts["unseen"] or counts["astray"] for _, counts in counted)
    return 2 if unknown else int(any(counts["again"] for _, counts in counted))


def main():
    signal.signal(signal.SIGINT, signal.SIG_DFL)
    status = 2
    try:
        status = looked_into(*options_of(sys.argv[1:]))
    except BrokenPipeError:
        signal.signal(signal.SIGPIPE, signal.SIG_DFL)
        os.kill(os.getpid(), signal.SIGPIPE)
    except OSError as error:
        say("the output can't be written: %s" % error.strerror)
    except Exception as error:
        say(why_not(error, "a file", PLACES))
    os._exit(status)


main()
