"""What the tests of claimdesk share."""
import io
import os
import re
import shutil
import subprocess
import sys
import tempfile
import unittest
from unittest import mock

sys.dont_write_bytecode = True
TOOLS = os.path.dirname(os.path.dirname(os.path.abspath(__file__)))
ROOT = os.path.dirname(TOOLS)
if TOOLS not in sys.path:
    sys.path.insert(0, TOOLS)

from desk import cli, running  # noqa: E402

COMMAND = os.path.join(TOOLS, "claimdesk")
EXAMPLES = os.path.join(ROOT, "examples")
CASE_BOOK = os.path.join(ROOT, "crates", "claimrun", "data", "book.dat")
CASE_MESSAGES = os.path.join(ROOT, "crates", "claimrun", "stdin")
CASE_OUTPUT = os.path.join(ROOT, "crates", "claimrun", "stdout")

BOOK = """opening_day = 2023-04-04

[accounts]
1 = "First Bank"
2 = "Second Bank"

[[security]]
number = 0
name = "Pool"
type = "agency MBS"
frequency = "monthly"

[[security.payment]]
record = 2023-04-01
beneficiary = 2023-04-01
payment = 2023-04-15
interest = "0.005"

[[security.payment]]
record = 2023-05-01
beneficiary = 2023-05-01
payment = 2023-05-15
interest = "0.005"
"""
IN_PIECES = BOOK.replace('name = "Pool"', 'name = "Pool"\npiece = 1_000')
MESSAGES = """
[[message]]
sender = "First Bank"
receiver = 2
security = "Pool"
par = 200_000
contract_date = 2023-03-15

[[message]]
close = 2
"""
PAIR = """
[[transfer]]
title = "One"
settlement_day = 2023-04-04
sender = 1
receiver = 2
security = 0
par = 200_000
contract_date = 2023-03-15

[[transfer]]
title = "Other"
settlement_day = 2023-03-31
sender = 1
receiver = 2
security = 0
par = 200_000
contract_date = 2023-03-15
"""


REFUSALS = r"claimdesk: [0-9,]+ of [0-9,]+ messages? refused\n\Z"

# What belongs to Python and not to a source.
PYTHON_WORDS = r"\b(True|False|None)\b|\\[a-z]|<class|Error\b|datetime\\.|Decimal"


def content(path):
    """The bytes of a file."""
    with open(path, "rb") as file:
        return file.read()


class Desk(unittest.TestCase):
    """A folder for each test, and claimdesk called within this process or as a command."""

    @classmethod
    def setUpClass(cls):
        if not os.path.exists(running.PROGRAM):
            raise AssertionError("there is no target/bin/claimrun: tools/build builds it")

    def setUp(self):
        self.folder = tempfile.mkdtemp()
        self.addCleanup(shutil.rmtree, self.folder)

    def path(self, name):
        return os.path.join(self.folder, name)

    def file(self, name, text):
        """Writes a file and gives its path."""
        with open(self.path(name), "wb") as file:
            file.write(text if isinstance(text, bytes) else text.encode("utf-8"))
        return self.path(name)

    def call(self, *args, given=b""):
        """Status, standard output as bytes and standard error as text of a call within this process."""
        output, errors = io.TextIOWrapper(io.BytesIO()), io.StringIO()
        given = io.TextIOWrapper(io.BytesIO(given))
        with mock.patch.multiple(sys, stdout=output, stderr=errors, stdin=given):
            try:
                status = cli.main(list(args))
            except SystemExit as end:
                status = end.code
        output.flush()
        return status, output.buffer.getvalue(), errors.getvalue()

    def good(self, *args, given=b""):
        """Standard output of a call that must succeed without a word on standard error but the count of refusals."""
        status, output, errors = self.call(*args, given=given)
        self.assertEqual((status, re.sub(REFUSALS, "", errors)), (0, ""))
        return output

    def bad(self, *args, given=b""):
        """The errors of a call that must fail with status 1 and print nothing else, each a line with file and line or the desk's name."""
        status, output, errors = self.call(*args, given=given)
        self.assertEqual((status, output), (1, b""), errors)
        self.plain(errors)
        return errors

    def plain(self, errors):
        """The errors are lines of the right form, and no words of Python."""
        self.assertRegex(errors, r"\A((claimdesk|[^:\n]+:[0-9]+): [^\n]+\n)+\Z")
        self.assertNotRegex(errors, PYTHON_WORDS)

    def command(self, *args, **words):
        """claimdesk as a process of its own."""
        return subprocess.run([sys.executable, COMMAND, *args], capture_output=True, timeout=60, cwd=self.folder, **words)
