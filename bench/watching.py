"""Used by bench/watch: runs the programs on the streams that it made, and prints what was measured.

    watching.py FOLDER WATCH PLAIN RUNNER...      FOLDER has recording.raw, dout.raw and piece.raw; RUNNER stands before a program
"""
import array
import fcntl
import hashlib
import os
import shutil
import statistics
import subprocess
import sys
import termios
import time

TURNS = 9
CHIPS = 8
HEAD = 3
TEXT_SAMPLES = 10000000

# the wires are bits 0 to 2 of a byte; LOAD is high while bits are clocked, a bit is DIN at a DCLK rise, the lowest of a word comes first
DECODER = "spi:mosi=0:clk=1:cs=2:cs_polarity=active-high:cpol=1:cpha=1:bitorder=lsb-first:wordsize=12"


def timed(command, path):
    """Seconds of a run, whose output isn't kept, and of the processor in it."""
    with open(path, "rb") as stream:
        began = time.perf_counter()
        running = subprocess.Popen(command, stdin=stream, stdout=subprocess.DEVNULL)
        _, status, used = os.wait4(running.pid, 0)
        took = time.perf_counter() - began
        running.returncode = status
    if status != 0:
        sys.exit("%s: exit status %d" % (" ".join(command), status))
    return took, used.ru_utime + used.ru_stime


def medians(commands, path, turns):
    """Of each command, all of them in turn: the medians of its seconds, and of the processor's."""
    runs = [[timed(command, path) for command in commands] for _ in range(turns)]
    return [tuple(map(statistics.median, zip(*column))) for column in zip(*runs)]


def output(command, path):
    with open(path, "rb") as stream:
        return subprocess.run(command, stdin=stream, stdout=subprocess.PIPE, check=True).stdout


def memory(command, path):
    """The most memory that was resident, in KiB, once a program has taken all of a stream: the system says so of a running process."""
    with subprocess.Popen(command, stdin=subprocess.PIPE, stdout=subprocess.DEVNULL) as running:
        with open(path, "rb") as stream:
            shutil.copyfileobj(stream, running.stdin, 65536)
        running.stdin.flush()
        left = array.array("i", [1])
        while left[0] > 0:                              # until the pipe is empty
            time.sleep(0.01)
            fcntl.ioctl(running.stdin, termios.FIONREAD, left)
        time.sleep(0.1)
        with open("/proc/%d/status" % running.pid) as status:
            most = next(line.split()[1] for line in status if line.startswith("VmHWM:"))
        running.stdin.close()
    return int(most)


def decoded(text):
    """The words that sigrok-cli found, in rows as `watch` has them: chip 0 first, which is sent last."""
    words = [int(line.split()[-1], 16) for line in text.splitlines()]
    rows = [words[at:at + CHIPS][::-1] for at in range(0, len(words), CHIPS)]
    return "".join("10%02X%04X\n" % (chip, word) for row in rows for chip, word in enumerate(row))


def beside_sigrok(folder, watch):
    piece = os.path.join(folder, "piece.raw")
    samples = os.path.join(folder, "piece.bin")
    with open(piece, "rb") as stream, open(samples, "wb") as out:
        out.write(stream.read()[HEAD:])
    command = ["sigrok-cli", "-I", "binary:numchannels=3:samplerate=1000000", "-i", samples, "-P", DECODER, "-A", "spi=mosi-data"]
    if decoded(output(command, os.devnull).decode()).encode() != output(watch, piece):
        sys.exit("sigrok-cli and watch differ")
    ours, _ = medians([watch], piece, TURNS)[0]
    theirs, _ = medians([command], os.devnull, 3)[0]
    print("the first %d samples, which give the same words: watch %.1f ms, sigrok-cli %.2f s, ratio 1 : %.0f"
          % (os.path.getsize(samples), 1000 * ours, theirs, theirs / ours))


def write_text(recording, path):
    """The first 10,000,000 samples as text, 32 in a line."""
    with open(recording, "rb") as stream, open(path, "w") as out:
        out.write(stream.read(HEAD).hex() + "\n")
        samples = stream.read(TEXT_SAMPLES).hex()
        out.writelines("01%s\n" % samples[at:at + 64] for at in range(0, len(samples), 64))


def compare(what, commands, path):
    """Both must give the same; then the medians of their times."""
    outs = [output(command, path) for command in commands]
    if len({hashlib.sha256(out).digest() for out in outs}) != 1:
        sys.exit("watch and the plain twin differ")
    print("%s, %d lines of output" % (what, outs[0].count(b"\n")))
    for kind, proved, twin in zip(("time", "the processor's"), *medians(commands, path, TURNS)):
        print("  %s: proved %.3f s, plain %.3f s, ratio %.3f" % (kind, proved, twin, proved / twin))


def main():
    folder, watch, plain = sys.argv[1:4]
    runner = sys.argv[4:]
    commands = [runner + [watch], runner + [plain]]
    recording = os.path.join(folder, "recording.raw")
    text = os.path.join(folder, "recording.txt")

    compare("%d samples, raw" % (os.path.getsize(recording) - HEAD), commands, recording)
    for path in os.path.join(folder, "piece.raw"), recording:
        used = tuple(memory(command, path) for command in commands)
        print("most resident memory, %d bytes watched: proved %d KiB, plain %d KiB" % ((os.path.getsize(path),) + used))
    dout = os.path.join(folder, "dout.raw")
    compare("%d samples with DOUT, raw" % (os.path.getsize(dout) - HEAD), commands, dout)
    write_text(recording, text)
    compare("the first %d samples, as text" % TEXT_SAMPLES, commands, text)
    if shutil.which("sigrok-cli"):
        beside_sigrok(folder, commands[0])
    else:
        print("sigrok-cli isn't installed: left out")


main()
