"""What the tests of claimrun share: the program as a process, input whose pieces arrive apart, and stored streams.

The program is target/bin/claimrun, or the one that the environment variable CLAIMRUN names.
"""
import bisect
import contextlib
import fcntl
import gzip
import os
import select
import shutil
import signal
import struct
import subprocess
import sys
import tempfile
import termios
import time
import unittest

sys.dont_write_bytecode = True
HERE = os.path.dirname(os.path.abspath(__file__))
ROOT = os.path.dirname(os.path.dirname(HERE))
PROGRAM = os.path.abspath(os.environ.get("CLAIMRUN") or os.path.join(ROOT, "target", "bin", "claimrun"))
CRATE = os.path.join(ROOT, "crates", "claimrun")
SIZES = {(139, 0, 1, 0): 141, (2, 0, 2, 0): 4}       # the whole records that a run goes on behind, by their header
ANSWER_KIND = 4
INPUT_BUFFER = 65536
OUTPUT_BUFFER = 262144
RECORD_ROOM = 65542                                  # the output that must be free for a record
SECONDS = 30


def content(*names):
    """The bytes of a file."""
    with open(os.path.join(*names), "rb") as file:
        return file.read()


BOOK = content(CRATE, "data", "book.dat")
TRANSFER = content(CRATE, "stdin")
EXPECTED = content(CRATE, "stdout")


def answer(number):
    """An answer's record."""
    return struct.pack("<HHH", 4, ANSWER_KIND, number)


# ---- stored streams

def parts(data):
    """The parts of a file, each behind its length of four bytes."""
    found, at = [], 0
    while at < len(data):
        size = struct.unpack_from("<I", data, at)[0]
        found.append(data[at + 4:at + 4 + size])
        at += 4 + size
    return found


class Stream:
    """A book, an input, all that is to be written for it by the reference, and where the input is cut."""

    def __init__(self, book, data, expected, cuts=()):
        self.book, self.data, self.expected, self.cuts = book, data, expected, list(cuts)
        self.starts = record_starts(data)
        self.ends = answer_ends(expected)

    def pieces(self, cuts=None):
        """The input in pieces, cut at these places or at its own; none of them is empty."""
        ends = (self.cuts if cuts is None else list(cuts)) + [len(self.data)]
        return [self.data[start:end] for start, end in zip([0] + ends, ends) if start < end]

    def due(self, size):
        """How many bytes are to be written once this much of the input is read: the answers of its whole records."""
        whole = bisect.bisect_right(self.starts, size) - 1
        return self.ends[min(whole, len(self.ends) - 1)]

    def until(self, records):
        """The same stream with this many records."""
        end = self.starts[records]
        return Stream(self.book, self.data[:end], self.expected[:self.ends[records]], (cut for cut in self.cuts if cut < end))


def record_starts(data):
    """Where the records of an input begin, as far as they are whole, and where the last of these ends."""
    starts = [0]
    while size := SIZES.get(tuple(data[starts[-1]:starts[-1] + 4])):
        if starts[-1] + size > len(data):
            break
        starts.append(starts[-1] + size)
    return starts


def answer_ends(expected):
    """Where the answers of an output end, from 0 on."""
    ends, at = [0], 0
    while at < len(expected):
        following, kind = struct.unpack_from("<HH", expected, at)
        at += 2 + following
        if kind == ANSWER_KIND:
            ends.append(at)
    return ends


def stored(name):
    """A stream of data/."""
    *rest, cuts = parts(gzip.decompress(content(HERE, "data", name + ".stream.gz")))
    return Stream(*rest, (cut for cut, in struct.iter_unpack("<I", cuts)))


def vectors():
    """The streams of crates/vectors; an empty book there is a missing one."""
    found = parts(content(ROOT, "crates", "vectors", "data", "streams.in"))
    return [Stream(*found[at:at + 3]) for at in range(0, len(found), 3)]


# ---- the process

def unread(pipe):
    """How many bytes stand in a pipe."""
    return struct.unpack("@i", fcntl.ioctl(pipe, termios.FIONREAD, bytes(4)))[0]


def pipe_of(size):
    """A pipe that holds this many bytes: its end to read from and its end to write to."""
    ours, theirs = os.pipe()
    fcntl.fcntl(theirs, fcntl.F_SETPIPE_SZ, size)
    return ours, theirs


def state(process):
    """The letter of a process's state (S sleeps, R runs, T is stopped), or nothing where it has ended."""
    if process.poll() is not None:
        return ""
    return content("/proc", str(process.pid), "stat").rpartition(b")")[2].split()[0].decode()


def wait_until(holds):
    """Waits until something holds."""
    last = time.monotonic() + SECONDS
    while not holds():
        if time.monotonic() > last:
            raise AssertionError("claimrun does not get there in %d seconds" % SECONDS)
        time.sleep(0.00002)


class Run:
    """claimrun at work: its input is a pipe that can hold a MiB, its output a file."""

    def __init__(self, folder, ready=b""):
        """Starts claimrun; bytes that are ready stand in its input before."""
        theirs, self.input = pipe_of(2 ** 20)
        if ready:
            os.write(self.input, ready)
        self.output = open(os.path.join(folder, "output"), "w+b")
        self.process = subprocess.Popen([PROGRAM], cwd=folder, stdin=theirs, stdout=self.output)
        os.close(theirs)

    def is_waiting(self):
        """Whether all input is read and the program sleeps until there is more, or has ended. A write wakes a program that sleeps, so
        that it runs from then on until it has read all and sleeps again."""
        return state(self.process) == "" or unread(self.input) == 0 and state(self.process) in ("S", "")

    def wait(self):
        wait_until(self.is_waiting)

    def send(self, piece):
        """Hands over a piece so that it arrives at once and apart from all others. A write of up to PIPE_BUF bytes is never seen in
        part; for a longer one the program is stopped."""
        stops = len(piece) > select.PIPE_BUF and state(self.process) != ""
        if stops:
            self.process.send_signal(signal.SIGSTOP)
            wait_until(lambda: state(self.process) in ("T", ""))
        with contextlib.suppress(BrokenPipeError):
            os.write(self.input, piece)
        if stops:
            self.process.send_signal(signal.SIGCONT)
        self.wait()

    def written(self):
        """How many bytes are written so far."""
        return os.fstat(self.output.fileno()).st_size

    def end(self):
        """Ends the input and gives all that is written, and the exit status."""
        os.close(self.input)
        self.input = None
        status = self.process.wait(timeout=SECONDS)
        self.output.seek(0)
        return self.output.read(), status

    def __enter__(self):
        return self

    def __exit__(self, *error):
        """Leaves nothing behind."""
        self.process.kill()
        self.process.wait()
        self.output.close()
        if self.input is not None:
            os.close(self.input)


class Claimrun(unittest.TestCase):
    """A folder with a book for each test."""

    @classmethod
    def setUpClass(cls):
        if not os.path.exists(PROGRAM):
            raise AssertionError("there is no %s: tools/build builds it" % PROGRAM)

    def setUp(self):
        self.folder = tempfile.mkdtemp()
        self.addCleanup(shutil.rmtree, self.folder)
        self.write_book(BOOK)

    def path(self, name):
        return os.path.join(self.folder, name)

    def write_book(self, data):
        """Writes book.dat; without bytes there is none."""
        if data:
            with open(self.path("book.dat"), "wb") as file:
                file.write(data)
        elif os.path.exists(self.path("book.dat")):
            os.remove(self.path("book.dat"))

    def same(self, found, expected):
        """The bytes are the expected ones; else where they differ first is told."""
        if found != expected:
            at = next((at for at, (a, b) in enumerate(zip(found, expected)) if a != b), min(len(found), len(expected)))
            self.fail("%d bytes are written, %d are expected; they differ from byte %d on" % (len(found), len(expected), at))

    def run_pieces(self, stream, pieces, ready=b""):
        """Hands the pieces over one by one. At each pause all that is due is written, and at the end all of it."""
        self.write_book(stream.book)
        with Run(self.folder, ready) as run:
            size = len(ready)
            for piece in pieces:
                if size:
                    run.wait()
                    if state(run.process) == "":
                        break
                    self.assertEqual(run.written(), stream.due(size), "bytes written when %d bytes of input are read" % size)
                run.send(piece)
                size += len(piece)
            found, status = run.end()
        self.same(found, stream.expected)
        self.assertEqual(status, 0)

    def run_file(self, stream):
        """Gives the input as a file."""
        self.write_book(stream.book)
        with open(self.path("input"), "wb") as file:
            file.write(stream.data)
        with open(self.path("input"), "rb") as file:
            run = subprocess.run([PROGRAM], cwd=self.folder, stdin=file, stdout=subprocess.PIPE, timeout=SECONDS)
        self.same(run.stdout, stream.expected)
        self.assertEqual(run.returncode, 0)
