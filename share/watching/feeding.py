"""What is fed to the program: a probe's recording, as a raw stream, or a stream whose samples are looked at on the way."""
import os

from probe import recording
from probe.refusal import say
from probe.source import named

from .events import Stream
from .running import AT_ONCE


def is_recording(file, of_import):
    """Whether a file is a probe's recording, and no stream: by an option of import, by its name, or by its first bytes. One that is
    named as raw samples are, and begins as a raw stream does, is a stream."""
    if of_import or file == "-":
        return bool(of_import)
    head = b""
    if os.path.isfile(file):
        try:
            with open(file, "rb") as opened:
                head = opened.read(4)
        except OSError:
            return False
    name = file.lower()
    form = recording.ENDINGS.get(os.path.splitext(name[:-3] if name.endswith(".gz") else name)[1])
    if form == "raw" and recording.STREAM.match(head):
        return False
    return form is not None or head.startswith((b"$", recording.ZIP, recording.GZIP))


def feed_recording(file, wanted, events):
    """What feeds a recording to the program, as a raw stream."""
    text = wanted.text
    text.stream = True
    text.say = lambda line: say("%s: %s" % (named(file), line))
    events.chips = text.chips
    opened = recording.Recording(file, wanted, live=True)

    def work(feed):
        def out(data, samples, times):
            if samples:
                events.samples(data, times)
            feed(data)
        text.out = out
        try:
            opened.read()
        finally:
            text.hand_on()
        for line in text.remarks():
            text.say(line)
    return work


def feed_stream(source, moments, events):
    """What feeds a stream to the program, whose times stand in a file."""
    def work(feed):
        stream = Stream(moments, events)
        more = True
        while more and not stream.refused:
            data = source.read1(AT_ONCE)
            if not data:
                feed(stream.end())
                return
            more = feed(stream.take(data))
        if stream.refused:
            raise stream.refused
    return work
