"""Pipes that do not block, writes that are cut short, output that cannot be written, and input that cannot be read."""
import os
import signal
import subprocess
import time
import unittest

import common
from common import BOOK, PROGRAM, SECONDS, TRANSFER, pipe_of, state, unread, wait_until

SMALL_PIPE = 16384
QUIET = 0.02


class Between:
    """claimrun between two pipes, of which the second holds little."""

    def __init__(self, folder, reads_block, writes_block):
        """Starts it; its own ends of the pipes block or do not."""
        theirs, self.input = pipe_of(2 ** 20)
        self.output, theirs_too = pipe_of(SMALL_PIPE)
        os.set_blocking(theirs, reads_block)
        os.set_blocking(theirs_too, writes_block)
        self.process = subprocess.Popen([PROGRAM], cwd=folder, stdin=theirs, stdout=theirs_too)
        os.close(theirs)
        os.close(theirs_too)
        self.found = b""

    def settle(self, pipe, holds):
        """Waits until something holds, and then until nothing has moved in a pipe for a while; whether the program goes on."""
        wait_until(lambda: holds() or state(self.process) == "")
        before = None
        while before != (before := unread(pipe)):
            time.sleep(QUIET)
        return state(self.process) != ""

    def work(self, stream, pieces, at_each):
        """Reads the output only where the program cannot write more of what is due, and writes a piece only where it has read and
        answered all others, and has found nothing more to read."""
        size = 0
        for piece in pieces:
            if not self.settle(self.input, lambda: unread(self.input) == 0):
                return
            at_each()
            os.write(self.input, piece)
            size += len(piece)
            while len(self.found) < stream.due(size):
                if not self.settle(self.output, lambda: unread(self.output) > 0) and not unread(self.output):
                    return
                at_each()
                self.found += os.read(self.output, SMALL_PIPE)

    def end(self):
        """Ends the input, reads the rest and gives the exit status."""
        os.close(self.input)
        while piece := os.read(self.output, SMALL_PIPE):
            self.found += piece
        os.close(self.output)
        return self.process.wait(timeout=SECONDS)

    def __enter__(self):
        return self

    def __exit__(self, *error):
        """Leaves nothing behind."""
        self.process.kill()
        self.process.wait()

    def stop_and_continue(self):
        """Stops the program where it waits, and lets it go on."""
        if state(self.process) != "":
            self.process.send_signal(signal.SIGSTOP)
            wait_until(lambda: state(self.process) in ("T", ""))
            self.process.send_signal(signal.SIGCONT)


class Waiting(common.Claimrun):
    """Input that comes late and output that is read late."""

    def try_stream(self, stream, pieces, reads_block=True, writes_block=True, stops=False):
        self.write_book(stream.book)
        with Between(self.folder, reads_block, writes_block) as between:
            between.work(stream, pieces, between.stop_and_continue if stops else lambda: None)
            status = between.end()
        self.same(between.found, stream.expected)
        self.assertEqual(status, 0)

    def test_reads_that_do_not_block(self):
        """Before each piece a read finds nothing."""
        stream = common.stored("many-reads").until(20)
        self.assertGreater(len(stream.cuts), 20)
        self.try_stream(stream, stream.pieces(), reads_block=False)

    def test_writes_that_do_not_block(self):
        """The output is full many times before it is read."""
        stream = common.stored("full-output")
        self.try_stream(stream, stream.pieces(), writes_block=False)

    def test_neither_blocks(self):
        stream = common.stored("fill-points-at")
        self.try_stream(stream, stream.pieces(), reads_block=False, writes_block=False)

    def test_both_block(self):
        stream = common.stored("full-output")
        self.try_stream(stream, stream.pieces())

    def test_stopped_while_it_reads_and_writes(self):
        """A write that has begun and is stopped ends with fewer bytes than it was given."""
        stream = common.stored("full-output")
        self.try_stream(stream, stream.pieces(), stops=True)


class Failing(common.Claimrun):
    """Output that cannot be written and input that cannot be read: the program ends by itself, with one line on standard error."""

    def ended(self, command=(PROGRAM,), **words):
        """claimrun's end; its input is a transfer, and stays open."""
        theirs, ours = pipe_of(2 ** 20)
        os.write(ours, TRANSFER)
        try:
            return subprocess.run(command, cwd=self.folder, timeout=SECONDS, **{"stdin": theirs, "stderr": subprocess.PIPE} | words)
        finally:
            os.close(theirs)
            os.close(ours)

    def one_line(self, run, words):
        """The exit status is 0, and standard error is one line with these words."""
        self.assertEqual(run.returncode, 0)
        self.assertRegex(run.stderr, rb"\Aclaimrun: [^\n]*%s[^\n]*\n\Z" % words)

    def test_full_device(self):
        with open("/dev/full", "wb") as full:
            self.one_line(self.ended(stdout=full), b"standard output")

    def test_closed_output(self):
        self.one_line(self.ended(["sh", "-c", 'exec "$0" >&-', PROGRAM]), b"standard output")

    def test_reader_gone(self):
        """A write to a pipe that nobody reads fails. Its signal ends nothing: a program of the kit ignores it from its start."""
        for ignored in (True, False):
            ours, theirs = os.pipe()
            os.close(ours)
            run = self.ended(stdout=theirs, restore_signals=not ignored)
            os.close(theirs)
            self.one_line(run, b"standard output")

    def test_answer_about_the_book(self):
        self.write_book(b"")
        with open("/dev/full", "wb") as full:
            self.one_line(self.ended(stdout=full), b"standard output")

    def test_help(self):
        for argument in ("--help", "--version"):
            with open("/dev/full", "wb") as full:
                self.one_line(self.ended([PROGRAM, argument], stdout=full), b"standard output")

    def test_input_that_cannot_be_read(self):
        for name, flags in (("/", os.O_RDONLY), (os.devnull, os.O_WRONLY)):
            given = os.open(name, flags)
            run = self.ended(stdin=given, stdout=subprocess.PIPE)
            os.close(given)
            self.one_line(run, b"standard input")
            self.assertEqual(run.stdout, b"")

    def test_closed_input(self):
        run = self.ended(["sh", "-c", 'exec "$0" <&-', PROGRAM], stdout=subprocess.PIPE)
        self.one_line(run, b"standard input")
        self.assertEqual(run.stdout, b"")

    def test_other_runs_say_nothing(self):
        """Neither an end of the input nor a refusal is told on standard error."""
        for book, data in ((BOOK, TRANSFER), (BOOK, TRANSFER + TRANSFER[:9]), (BOOK[:-4] + bytes(4), TRANSFER), (b"", b"")):
            self.write_book(book)
            run = subprocess.run([PROGRAM], cwd=self.folder, input=data, capture_output=True, timeout=SECONDS)
            self.assertEqual((run.returncode, run.stderr), (0, b""))


if __name__ == "__main__":
    unittest.main()
