"""Arguments: --help and --version are answered, others refused; neither the book nor the input is looked at."""
import os
import subprocess
import unittest

import common
from common import PROGRAM, ROOT, SECONDS, TRANSFER, pipe_of, unread


class Arguments(common.Claimrun):
    def setUp(self):
        super().setUp()
        self.write_book(b"")

    def said(self, *arguments):
        """Standard output and standard error of claimrun with these arguments; it reads nothing of its input."""
        theirs, ours = pipe_of(2 ** 20)
        os.write(ours, TRANSFER)
        os.close(ours)
        run = subprocess.run([PROGRAM, *arguments], cwd=self.folder, stdin=theirs, capture_output=True, timeout=SECONDS)
        left = unread(theirs)
        os.close(theirs)
        self.assertEqual((run.returncode, left), (0, len(TRANSFER)))
        return run.stdout, run.stderr

    def test_version(self):
        version = common.content(ROOT, "VERSION")
        self.assertRegex(version, rb"\A[0-9]+\.[0-9]+\.[0-9]+\n\Z")
        self.assertEqual(self.said("--version"), (b"claimrun " + version, b""))

    def test_help(self):
        output, errors = self.said("--help")
        self.assertEqual(errors, b"")
        self.assertTrue(output.endswith(b"\n"))
        for words in (b"claimrun", b"book.dat", b"standard input", b"--version"):
            self.assertIn(words, output)

    def refused(self, *arguments):
        output, errors = self.said(*arguments)
        self.assertEqual(output, b"")
        self.assertRegex(errors, rb"\Aclaimrun: [^\n]+\n\Z")

    def test_other_arguments(self):
        for argument in ("x", "", "-", "--", "-h", "--hel", "--help ", "--helpx", "--versio", "--Version", "version", "--cards",
                         "book.dat", b"\xff\xfe", "--help" + "x" * 100_000):
            with self.subTest(argument=argument[:20]):
                self.refused(argument)

    def test_more_than_one_argument(self):
        for arguments in (("--help", "--version"), ("--version", "x"), ("x", "--help"), ("", "")):
            with self.subTest(arguments=arguments):
                self.refused(*arguments)


if __name__ == "__main__":
    unittest.main()
