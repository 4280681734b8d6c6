"""Running claimrun, and claimdesk as a process: pipes, terminals, signals."""
import io
import os
import pty
import signal
import subprocess
import sys
import time
import unittest

import common
from common import BOOK, COMMAND, MESSAGES, content
from desk import running

STOPS = BOOK + MESSAGES + '[[message]]\nhex = "0102"\n[[message]]\nclose = 1\n'


def interruptible():
    """In a process that a test starts: SIGINT meets it, also where the tests run in the background and ignore that signal."""
    signal.signal(signal.SIGINT, signal.SIG_DFL)


class Runs(common.Desk):
    def program(self, text):
        """A program in claimrun's place."""
        path = self.file("program", "#!/bin/sh\n" + text)
        os.chmod(path, 0o755)
        return path

    def test_claims_and_answers(self):
        lines = self.good("run", self.file("s.toml", BOOK + MESSAGES)).decode().split("\n")
        self.assertEqual(lines[1].split(), "1 fail 1 First Bank Second Bank Pool 2023-04-01 1,000.00 0.00 2023-04-17 day".split())
        self.assertIn("1  accepted: transfer First Bank to Second Bank, Pool, par 200,000, Contract Date 2023-03-15", lines[2])
        self.assertEqual([line.strip() for line in lines[3:]],
                         ["2  accepted: close, to 2023-04-05", "3  accepted: close, to 2023-04-06", ""])

    def test_the_same_as_by_hand(self):
        source = self.file("s.toml", BOOK + MESSAGES)
        self.good("book", "make", source, "-o", self.path("book.dat"))
        self.good("messages", "make", source, "-o", self.path("messages.dat"))
        with open(self.path("messages.dat"), "rb") as given, open(self.path("out.dat"), "wb") as output:
            subprocess.run([running.PROGRAM], cwd=self.folder, stdin=given, stdout=output, check=True, timeout=60)
        shown = self.good("claims", "show", self.path("out.dat"), "--book", source, "--messages", self.path("messages.dat"), "--format", "csv")
        self.assertEqual(shown, self.good("run", source, "--format", "csv"))

    def test_output_file(self):
        source = self.file("s.toml", BOOK + MESSAGES)
        self.assertEqual(self.good("run", source, "-o", self.path("claims.txt")), b"")
        self.assertEqual(content(self.path("claims.txt")), self.good("run", source))

    def test_refused_calls_are_answers(self):
        text = self.good("run", self.file("s.toml", BOOK + MESSAGES.replace("2023-03-15", "2023-04-05"))).decode()
        self.assertIn("1  REFUSED 138, the Contract Date is after the day: transfer", text)

    def test_claimrun_stops_at_a_damaged_record(self):
        lines = self.good("run", self.file("s.toml", STOPS)).decode().strip().split("\n")
        self.assertIn("4  REFUSED 5, the record is cut short", lines[-1])
        self.assertIn("6 bytes that are no whole message", lines[-1])

    def test_damaged_books(self):
        for words, number in (("[words.calendar]\n1 = 4294967295\n", 2), ("[words.tables]\n0 = 9\n", 3),
                              ("[words]\nopening_day = 20230402\n", 4)):
            text = self.good("run", self.file("s.toml", BOOK + MESSAGES + words)).decode()
            self.assertIn("-  REFUSED %d, " % number, text)
            self.assertEqual(text.count("\n"), 2)

    def test_claimrun_is_not_built(self):
        error = self.bad("run", self.file("s.toml", BOOK + MESSAGES), "--claimrun", self.path("none"))
        self.assertIn("claimrun is not built there", error)
        self.assertIn("tools/build", error)
        self.assertIn("claimrun cannot be run there", self.bad(
            "run", self.path("s.toml"), "--claimrun", self.file("plain", "")))

    def test_another_program_in_its_place(self):
        source = self.file("s.toml", BOOK + MESSAGES)
        for text, words in (("exit 3", "claimrun ended with status 3"), ("kill -9 $$", "claimrun ended with status -9"),
                            ("cat >/dev/null", "claimrun's output: its end, byte 0: message 1 of 3 has no answer: the output is cut"),
                            ("echo hello", "byte 0: no claim or answer begins here")):
            self.assertIn(words, self.bad("run", source, "--claimrun", self.program(text)))

    def test_folder_with_spaces_and_another_working_folder(self):
        os.mkdir(self.path("a b"))
        self.file("a b/s.toml", 'book = "b.toml"\nmessages = "m.csv"\n')
        self.file("a b/b.toml", BOOK)
        self.file("a b/m.csv", "close\n1\n")
        run = self.command("run", "a b/s.toml")
        self.assertEqual((run.returncode, run.stderr), (0, b""))
        self.assertIn(b"accepted: close", run.stdout)

    def test_temporary_folders_are_taken_away(self):
        os.mkdir(self.path("tmp"))
        self.file("s.toml", STOPS)
        self.command("run", "s.toml", env=os.environ | {"TMPDIR": self.path("tmp")})
        self.command("run", "s.toml", "--claimrun", "none", env=os.environ | {"TMPDIR": self.path("tmp")})
        self.assertEqual(os.listdir(self.path("tmp")), [])

    # ---- pipes, terminals, signals

    def test_closed_pipe(self):
        self.file("s.toml", BOOK + "[[message]]\nclose = 4000\n")
        process = subprocess.Popen([sys.executable, COMMAND, "run", "s.toml"], cwd=self.folder, stdout=subprocess.PIPE,
                                   stderr=subprocess.PIPE)
        process.stdout.close()
        self.assertEqual(process.stderr.read(), b"")
        process.stderr.close()
        self.assertEqual(process.wait(timeout=60), 141)

    def test_full_output(self):
        self.file("s.toml", BOOK + MESSAGES)
        with open("/dev/full", "wb") as full:
            run = subprocess.run([sys.executable, COMMAND, "run", "s.toml"], cwd=self.folder, stdout=full,
                                 stderr=subprocess.PIPE, timeout=60)
        self.assertEqual(run.returncode, 1)
        self.assertIn(b"claimdesk: standard output: No space left", run.stderr)
        self.assertIn("No space left", self.bad("run", self.path("s.toml"), "-o", "/dev/full"))

    def test_names_in_a_plain_locale(self):
        self.file("s.toml", BOOK.replace("First", "Crédit") + MESSAGES.replace("First", "Crédit"))
        run = self.command("run", "s.toml", env={"LC_ALL": "C", "PATH": os.environ["PATH"], "PYTHONUTF8": "0",
                                                 "PYTHONCOERCECLOCALE": "0"})
        self.assertEqual(run.returncode, 0)
        self.assertIn(" Crédit Bank ", run.stdout.decode("utf-8"))

    def terminal(self, *args, stop=None):
        """Status and standard error of a call whose standard error is a terminal."""
        ours, theirs = pty.openpty()
        process = subprocess.Popen([sys.executable, COMMAND, *args], cwd=self.folder, stdout=subprocess.DEVNULL, stderr=theirs,
                                   preexec_fn=interruptible)
        os.close(theirs)
        seen = b""
        while True:
            try:
                piece = os.read(ours, 1000)
            except OSError:
                break
            if not piece:
                break
            seen += piece
            if stop and b"claimrun: " in seen:
                process.send_signal(stop)
                stop = None
        os.close(ours)
        return process.wait(timeout=60), seen

    def test_progress_of_long_work(self):
        self.file("s.toml", BOOK + MESSAGES)
        waits = "import os, time; os.read(0, 4); time.sleep(1.5); os.lseek(0, 0, os.SEEK_SET)"
        slow = self.program('"%s" -c "%s"; exec "%s"' % (sys.executable, waits, running.PROGRAM))
        status, seen = self.terminal("run", "s.toml", "--claimrun", slow)
        self.assertIn(b"claimrun: 4 of 149 bytes read", seen)
        self.assertTrue(seen.endswith(b"\r"))
        self.assertEqual(status, 0)

    def test_no_progress_without_a_terminal(self):
        stream = io.StringIO()
        progress = running.Progress(stream)
        progress.next = 0
        progress.show("%d messages made", 1)
        progress.end()
        self.assertEqual(stream.getvalue(), "")

    def test_no_progress_of_short_work(self):
        self.file("s.toml", BOOK + MESSAGES)
        self.assertEqual(self.terminal("run", "s.toml"), (0, b""))

    def test_interrupted(self):
        self.file("s.toml", BOOK + MESSAGES)
        slow = self.program("exec sleep 20")
        status, seen = self.terminal("run", "s.toml", "--claimrun", slow, stop=signal.SIGINT)
        self.assertEqual(status, 130)
        self.assertNotIn(b"Traceback", seen)

    def ended_by(self, number):
        """Status and standard error of a run that a signal meets while claimrun works, and what is left of its temporary files."""
        os.makedirs(self.path("tmp"), exist_ok=True)
        self.file("s.toml", BOOK + MESSAGES)
        slow = self.program('echo $$ > "%s"; exec sleep 20' % self.path("started"))
        process = subprocess.Popen([sys.executable, COMMAND, "run", "s.toml", "--claimrun", slow, "-o", "claims.txt"], cwd=self.folder,
                                   stderr=subprocess.PIPE, env=os.environ | {"TMPDIR": self.path("tmp")}, preexec_fn=interruptible)
        while not os.path.exists(self.path("started")) or not content(self.path("started")).endswith(b"\n"):
            self.assertIsNone(process.poll())
            time.sleep(0.01)
        self.assertEqual(len(os.listdir(self.path("tmp"))), 1)
        process.send_signal(number)
        errors = process.communicate(timeout=60)[1]
        return process.returncode, errors, os.listdir(self.path("tmp"))

    def test_terminated(self):
        """Nothing is left behind: no folder, no output, no claimrun."""
        for number, status in ((signal.SIGTERM, 143), (signal.SIGINT, 130)):
            self.assertEqual(self.ended_by(number), (status, b"", []))
            self.assertFalse(os.path.exists(self.path("claims.txt")))
            self.assertRaises(ProcessLookupError, os.kill, int(content(self.path("started"))), 0)
            os.remove(self.path("started"))


if __name__ == "__main__":
    unittest.main()
