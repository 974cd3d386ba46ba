"""What can be said against a recording, and how it is said."""
import sys


class Refused(Exception):
    """The recording can't be imported. `why` says why; `place` is the number of the line from 1 or of the byte from 0, or None."""

    def __init__(self, why, place=None):
        super().__init__(why, place)
        self.why, self.place = why, place


class Unreadable(Refused):
    """Its file can't be read."""


class BadUsage(Exception):
    """What was typed can't be right."""


class Unwritten(Exception):
    """The output can't be written."""


class WrongTimes(Exception):
    """A file of times can't be read, or isn't for these samples."""


def why_not(error, name, places):
    """What an exception says of the recording that has the name; `places` names the places of each format."""
    if isinstance(error, BadUsage):
        return "%s\ntry 'zhaqsumir --help'" % error
    if isinstance(error, (Unwritten, WrongTimes)):
        return str(error)
    if isinstance(error, Unreadable):
        return "%s can't be read: %s" % (name, error.why)
    if isinstance(error, Refused):
        return "%s%s: %s" % (name, "" if error.place is None else ", %s %d" % (places[error.form], error.place), error.why)
    if isinstance(error, MemoryError):
        return "%s can't be read: there is not enough memory" % name
    return "%s can't be read: a fault of import itself (%s)" % (name, shown(repr(error)))      # nothing of the kind is known


def say(line):
    """To standard error, where that can be written."""
    try:
        sys.stderr.write("zhaqsumir: %s\n" % line)
        sys.stderr.flush()
    except (AttributeError, OSError):
        sys.stderr = None


def shown(part, most=40):
    """A part of a file or a name, for a message: printable characters alone, and not many."""
    text = part.decode("utf-8", "replace") if isinstance(part, bytes) else part
    text = "".join(character if character.isprintable() and character != "\ufffd" else "?" for character in text)
    return text if len(text) <= most else text[:most - 2] + ".."


def listed(parts, most=200):
    """Names in a row, for a message."""
    return shown(", ".join(shown(part) for part in parts) or "none", most)


def joined(parts):
    """A few words in a row, the last after an `and`."""
    return " and ".join(filter(None, (", ".join(parts[:-1]), parts[-1])))
