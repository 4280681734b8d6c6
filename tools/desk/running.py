"""Running claimrun: in a folder of its own, with book.dat there and the messages on standard input."""
import functools
import os
import signal
import subprocess
import sys
import time

from . import checking, files, layout, messages
from .errors import Fault

HOME = os.path.dirname(os.path.dirname(os.path.realpath(__file__)))
ROOT = os.path.dirname(HOME)
INSTALLED = os.path.join(HOME, "claimrun")
PROGRAM = INSTALLED if os.path.exists(INSTALLED) else os.path.join(ROOT, "target", "bin", "claimrun")
QUIET_SECONDS = 1.0
STEP_SECONDS = 0.2
STOPPING = (signal.SIGINT, signal.SIGTERM)


def own_file(*names):
    """The path of a file of the project: beside the desk where it is installed, else in the repository."""
    installed = os.path.join(HOME, *names)
    return installed if os.path.exists(installed) else os.path.join(ROOT, *names)


def version():
    """The version number."""
    return files.read_text(own_file("VERSION")).strip()


class Progress:
    """A line on standard error that says how far the work is, where that is a terminal and the work is long."""

    def __init__(self, stream=None):
        self.stream = stream or sys.stderr
        self.wanted = self.stream.isatty()
        self.next = time.monotonic() + QUIET_SECONDS
        self.width = 0

    def show(self, *words):
        """Shows words (a form and its values) if it is time to."""
        if not self.wanted or time.monotonic() < self.next:
            return
        self.next = time.monotonic() + STEP_SECONDS
        line = words[0] % words[1:]
        self.stream.write("\r" + line.ljust(self.width))
        self.stream.flush()
        self.width = len(line)

    def end(self):
        """Takes the line away, and shows no other."""
        self.wanted = False
        if self.width:
            self.stream.write("\r" + " " * self.width + "\r")
            self.stream.flush()
            self.width = 0


def program(path=None):
    """The path of claimrun."""
    path = os.path.abspath(path or PROGRAM)
    if not os.path.isfile(path):
        raise Fault(path, "claimrun is not built there",
                    "run 'tools/build' in the repository, which builds target/bin/claimrun, or --claimrun PATH")
    if not os.access(path, os.X_OK):
        raise Fault(path, "claimrun cannot be run there", "an executable file")
    return path


def run(path, folder, progress):
    """Runs claimrun in a folder that holds book.dat and messages.dat; what it writes is output.dat there."""
    with open(os.path.join(folder, "messages.dat"), "rb", buffering=0) as messages, \
            open(os.path.join(folder, "output.dat"), "wb") as output:
        mask = signal.pthread_sigmask(signal.SIG_BLOCK, STOPPING)
        heed = functools.partial(signal.pthread_sigmask, signal.SIG_SETMASK, mask)
        try:
            process = subprocess.Popen([path], cwd=folder, stdin=messages, stdout=output, preexec_fn=heed)
        except OSError as error:
            heed()
            raise Fault(path, "cannot be run: %s" % error.strerror) from None
        wait(process, messages, progress, heed)
    if process.returncode != 0:
        raise Fault(path, "claimrun ended with status %d" % process.returncode)


def wait(process, messages, progress, heed):
    """Waits for claimrun; how far it has read shows in the place of the file that it shares with this process. Signals are heeded
    from here on, where claimrun ends with the desk."""
    size = os.fstat(messages.fileno()).st_size
    try:
        heed()
        while True:
            try:
                process.wait(timeout=STEP_SECONDS)
                return
            except subprocess.TimeoutExpired:
                done = os.lseek(messages.fileno(), 0, os.SEEK_CUR)
                progress.show("claimrun: %d of %d bytes read", done, size)
    except BaseException:
        process.kill()
        process.wait()
        raise


class Run:
    """One run of claimrun on a book and messages: its output and the messages that it answers."""

    def __init__(self, path, folder, book, progress):
        self.path, self.folder, self.book, self.progress = program(path), folder, book, progress

    def messages(self, fields_in_order, found):
        """Writes the messages of a source."""
        with open(os.path.join(self.folder, "messages.dat"), "wb") as file:
            messages.make_into(file, fields_in_order, self.book.names, found,
                               lambda count: self.progress.show("%d messages made", count))

    def transfer(self, transfer):
        """Writes a transfer as the only message."""
        with open(os.path.join(self.folder, "messages.dat"), "wb") as file:
            file.write(layout.transfer_bytes(transfer))

    def work(self):
        """Runs claimrun and sees that each message got its answer."""
        with open(os.path.join(self.folder, "book.dat"), "wb") as file:
            file.write(self.book.bytes())
        run(self.path, self.folder, self.progress)
        with self.output() as output:
            checking.check(self.calls(), output, "claimrun's output")

    def output(self):
        """claimrun's output as a file."""
        return open(os.path.join(self.folder, "output.dat"), "rb")

    def calls(self):
        """The messages, from the first."""
        with open(os.path.join(self.folder, "messages.dat"), "rb") as file:
            yield from layout.messages(file)
