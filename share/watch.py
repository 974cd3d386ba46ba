#!/usr/bin/env python3
"""The command `zhaqsumir watch` of a recording, and of `watch`, `replay` and `screen` what is shown beside the lines: their meanings,
pictures and times. Nothing here is proved; the lines are those of the programs.

    watch.py watch [--screen] [--explain] [--picture] [--from T] [--to T] [--times FILE] [options of import for three wires] FILE
    watch.py replay [--explain] [--from T] [--to T] [--times FILE] FILE
    watch.py screen [--picture] [--from T] [--to T] [--times FILE] FILE

It runs the plain command, `zhaqsumir watch -` and the like, and feeds it: a recording as a raw stream, as it is read. Exit status as
that of the plain command; 2 for bad usage, and where a recording or a file of times can't be read on.
"""
import os
import signal
import sys

if sys.version_info < (3, 8):
    sys.stderr.write("zhaqsumir: this needs Python 3.8 or later\n")
    sys.exit(2)
sys.path.insert(0, os.path.dirname(os.path.abspath(__file__)))
sys.dont_write_bytecode = True

from probe import recording
from probe.chain import DOUT
from probe.options import FLAGS, OPTIONS, VALUED, Wanted, arguments
from probe.ch450 import TwoWires
from probe.refusal import BadUsage, Unwritten, say, why_not
from probe.source import named, stream_of
from show import SHOWN
from watching.beside import Bounds, Clock, refusal
from watching.events import Events
from watching.feeding import feed_recording, feed_stream, is_recording
from watching.moments import Moments
from watching.running import Feeder, Program, Words, put

OURS = {"from", "to", "times"}
OF_TWO = set(OPTIONS[TwoWires])
OF_IMPORT = {"out", "stream"}
SHOWING = {"replay": ("explain",), "screen": ("picture",), "watch": ("screen", "explain", "picture")}


def options_of(command, words):
    """The options as given, and the file."""
    flags = {name: (name, "yes") for name in ("screen", "explain", "picture")}
    valued = set(OURS)
    if command == "watch":
        flags.update(FLAGS)
        valued |= VALUED
    given, file = arguments(words, flags, valued, command)
    for name in given:
        if name in flags and name not in OF_TWO | OF_IMPORT and name not in SHOWING[command]:
            raise BadUsage("--%s doesn't go with %s" % (name, command))
        if name in OF_TWO:
            raise BadUsage("--%s is for the two wires of a CH450: import it, and show it with ch450" % name)
        if name in OF_IMPORT:
            raise BadUsage("--%s goes with import" % name)
    if "explain" in given and "picture" in given:
        raise BadUsage("--explain and --picture don't go together")
    return given, file


# ---- what is shown ----


def show(program, how, clock, bounds, refused):
    """Writes the program's lines, as they come, with what stands beside them. `how` is the function that does it, or None."""
    if how is None and not bounds.options:
        for block in program.blocks():
            put(block)
        return
    gathered = []
    beside = ["", True]         # the column before the next text, and whether it is shown

    def lines():
        for together in program.lines():
            for line in together:
                time = clock.of(line)
                beside[:] = clock.column(time) if how else "", bounds.shows(line, time)
                yield line
            put("".join(gathered))
            gathered.clear()

    for text in how(lines(), refused) if how else lines():
        if beside[1]:
            gathered.append("%s%s\n" % (beside[0], text))
            beside[0] = ""
    put("".join(gathered))


def watched(command, given, file):
    """Runs the program, feeds it and shows its lines; the exit status."""
    of_import = set(given) - OURS - {"screen", "explain", "picture"}
    screen = command == "screen" or "screen" in given or "picture" in given
    how = next((name for name in ("explain", "picture") if name in given), None)
    bounds = Bounds(given)
    events = Events()
    beside = file + ".times" if file != "-" and os.path.isfile(file + ".times") else None
    live = command == "watch" and is_recording(file, of_import)
    moments = words = None
    dout = False                # whether a recording's DOUT is kept
    if "times" in given and live:
        raise BadUsage("--times goes with a stream; a recording has its own times")
    if file == given.get("times") == "-":
        raise BadUsage("standard input is named twice, and can be read once")
    if "times" in given and not how and not bounds.options:
        raise BadUsage("--times goes with --explain, --picture, --from or --to")
    if live:
        wanted = Wanted(given)
        wanted.text.wants_times = bool(how or bounds.options)
        wanted.text.needs_times = bounds.options
        dout = DOUT in wanted.names and bool(how or bounds.options)
        work = feed_recording(file, wanted, events)
    elif given.get("times", beside) and (how or bounds.options):
        moments = Moments(given.get("times", beside))
        work = feed_stream(stream_of(file), moments, events)
    elif bounds.options:
        raise BadUsage("%s: no times are known; --times names a file of them" % bounds.options)
    else:
        work = None
    program = Program([command] + ["--screen"] * (command == "watch" and screen), None if work else stream_of(file))
    if work:
        words = Words(events) if screen and (moments or dout) else None
        feeder = Feeder(work, [program] + ([words.program] if words else []))
        feeder.start()
    try:
        function = SHOWN["screen" if screen else "replay", how] if how else None
        show(program, function, Clock(events, words), bounds, refusal(command))
    except BrokenPipeError:
        signal.signal(signal.SIGPIPE, signal.SIG_DFL)
        os.kill(os.getpid(), signal.SIGPIPE)
    except OSError as error:
        raise Unwritten("the output can't be written: %s" % error.strerror) from None
    program.tell_refusal()
    status = program.process.wait()
    if work and status == 0:
        feeder.join()
        if feeder.error:
            raise feeder.error
    return status if status >= 0 else 2


def main():
    signal.signal(signal.SIGINT, signal.SIG_DFL)
    file = "-"
    try:
        command = sys.argv[1]
        given, file = options_of(command, sys.argv[2:])
        status = watched(command, given, file)
    except Exception as error:
        say(why_not(error, named(file), recording.PLACES))
        status = 2
    os._exit(status)


main()
