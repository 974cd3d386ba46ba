"""Used by the tests of `watch` and `settext`: runs a program on a file, or on a stream that comes in pieces, each of them a read of its own."""
import os
import subprocess
import tempfile

LARGEST = 4096      # what the program reads at a time


def as_file(command, path):
    """What the program writes where its standard input is a file; on standard error it says nothing."""
    with open(path, "rb") as stream:
        done = subprocess.run(command, stdin=stream, stdout=subprocess.PIPE, stderr=subprocess.PIPE)
    return done.stdout + done.stderr + (b"" if done.returncode == 0 else b"exit status %d\n" % done.returncode)


def pieces(stream, sizes):
    """The stream cut into pieces of these sizes, taken in turn, again and again."""
    at, turn = 0, 0
    while at < len(stream):
        size = sizes[turn % len(sizes)]
        yield stream[at:at + size]
        at += size
        turn += 1


def watched(command, stream, sizes):
    """What the program writes. The pipe is in packet mode, so that a write of at most 4,096 bytes is a read of the program. Where it stops
    reading before the end, the rest isn't written. It has no exit status but 0, and says nothing on standard error."""
    from_end, to_end = os.pipe2(os.O_DIRECT | os.O_CLOEXEC)
    with tempfile.TemporaryFile() as out, tempfile.TemporaryFile() as said:
        running = subprocess.Popen(command, stdin=from_end, stdout=out, stderr=said)
        os.close(from_end)
        try:
            for piece in pieces(stream, sizes):
                os.write(to_end, piece)
        except BrokenPipeError:
            pass
        finally:
            os.close(to_end)
        status = running.wait()
        out.seek(0)
        said.seek(0)
        return out.read() + (b"" if status == 0 else b"exit status %d\n" % status) + said.read()
