"""The command program from outside: its commands and replies as bytes, and ways to run it on them."""
import contextlib
import pathlib
import random
import socket
import subprocess
import threading

from tally import judged

PROGRAM = pathlib.Path("crates/program/out/program")
SECONDS = 10  # no run needs one; a run that takes as long hangs
LENT = 1024  # 4,096 link words, four to a slot; slot 0 is never handed out
WORDS = 8
EVEN, NOT_LIVE, FULL, BROKEN = 3, 4, 5, 9


class Hangs(Exception):
    """A run took too long: the program reads or writes no more, or waits for what does not come."""


def words(*values):
    return b"".join(value.to_bytes(4, "little") for value in values)


def insert(row):
    return b"\x01" + words(*row)


def remove(i, v):
    return b"\x02" + words(i, v)


def look(i, v):
    return b"\x03" + words(i, v)


CLEAR = b"\x04"
WALK = b"\x05"


def key(i, v):
    return b"\x81" + words(i, v)


def row(i, v, values):
    return b"\x82" + words(i, v) + words(*values)


DONE = b"\x83"


def refused(n):
    return bytes([0x84, n])


def some(n):
    """A row whose words differ from each other and from those of other rows, with four different bytes each."""
    return [(n * WORDS + w) * 0x01000193 % 2**32 ^ 0x04030201 for w in range(WORDS)]


ZERO = [0] * WORDS
THREE = [some(1), some(2), some(3)]
IN = b"".join(insert(r) for r in THREE)
KEYS = key(1, 1) + key(2, 1) + key(3, 1)


def compared(got, want, label):
    """Both whole; where they part, some bytes around it in hexadecimal."""
    if got == want:
        judged(True, label)
        return
    at = next((i for i, (a, b) in enumerate(zip(got, want)) if a != b), min(len(got), len(want)))
    around = slice(max(at - 16, 0), at + 16)
    judged(False, label, f"differs at byte {at}: {len(got)} bytes, {got[around].hex(' ')}; expected {len(want)} bytes, {want[around].hex(' ')}")


def ran(stdin, stdout=subprocess.PIPE, data=None):
    """What the program wrote to standard output and standard error. There is no exit status to read."""
    with subprocess.Popen([PROGRAM], stdin=stdin, stdout=stdout, stderr=subprocess.PIPE) as run:
        try:
            return run.communicate(data, timeout=SECONDS)
        except subprocess.TimeoutExpired:
            run.kill()
            raise Hangs from None


def answers(label, data, want):
    """One run with all the input in a pipe, and nothing on standard error."""
    out, err = ran(subprocess.PIPE, data=data)
    if err:
        judged(False, label, f"on standard error: {err!r}")
    else:
        compared(out, want, label)


@contextlib.contextmanager
def ended(run):
    """Ends a run that takes too long, so that what is read of it comes to an end."""
    stop = threading.Timer(SECONDS, run.kill)
    stop.start()
    try:
        yield
        if stop.finished.is_set():
            raise Hangs
    finally:
        stop.cancel()


def in_pieces(data, size, slowly=False):
    """The output where each read gets so many bytes. A message of a socket of type SOCK_SEQPACKET is one read, so what is sent as one message
    is one piece, however fast it is sent; a pipe would join them. With slowly, the output is a small pipe, read a few bytes at a time."""
    ours, theirs = socket.socketpair(socket.AF_UNIX, socket.SOCK_SEQPACKET)
    ours.settimeout(SECONDS)

    def send():
        with ours, contextlib.suppress(OSError):  # the program has ended, or hangs: its output tells
            for at in range(0, len(data), size):
                ours.send(data[at : at + size])

    sender = threading.Thread(target=send)
    room = 4096 if slowly else -1
    with subprocess.Popen([PROGRAM], stdin=theirs, stdout=subprocess.PIPE, stderr=subprocess.DEVNULL, bufsize=0, pipesize=room) as run:
        theirs.close()
        with ended(run):
            sender.start()
            out = b"".join(iter(lambda: run.stdout.read(97), b"")) if slowly else run.communicate()[0]
    sender.join()
    return out


def same_in_pieces(label, data, want, sizes):
    for size in sizes:
        out = in_pieces(data, size)
        compared(out, want, f"{label}, in pieces of {size}")


def kinds(out):
    """The kinds of reply in an output, in order; None where it is no row of whole replies."""
    found, at = [], 0
    while at < len(out):
        length = {0x81: 9, 0x82: 41, 0x83: 1, 0x84: 2}.get(out[at])
        if length is None or at + length > len(out):
            return None
        found.append(out[at])
        at += length
    return found


def mixed(seed, size):
    """Commands of about so many bytes: keys are guessed, so that some are live and some are not."""
    chance = random.Random(seed)
    stream = bytearray()
    while len(stream) < size:
        guess = (chance.randrange(40), chance.choice((1, 1, 1, 3, 3, 5, 2, 2**32 - 1)))
        stream += chance.choice(
            (insert(some(chance.randrange(2**20))), insert(some(chance.randrange(2**20))), remove(*guess), look(*guess), look(*guess), WALK)
        )
        if chance.random() < 0.002:
            stream += CLEAR
    return bytes(stream)
