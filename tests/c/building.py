"""What the tests of the library share: its static form, the compilers, and C programs built with sanitizers."""
import functools
import os
import shutil
import subprocess
import sys
import tempfile
import unittest

sys.dont_write_bytecode = True
HERE = os.path.dirname(os.path.abspath(__file__))
ROOT = os.path.dirname(os.path.dirname(HERE))
HEADER = os.path.join(ROOT, "include", "claim_tracker.h")
LIBRARY = os.path.join(ROOT, "target", "staticlib", "libtracker.a")
CLAIMRUN = os.path.join(ROOT, "target", "bin", "claimrun")
WARNINGS = ("-Wall", "-Wextra", "-pedantic", "-Werror")
SANITIZERS = ("-g", "-fsanitize=address,undefined", "-fno-sanitize-recover=all")
SECONDS = 60


def content(*names):
    """The text of a file of the repository."""
    with open(os.path.join(ROOT, *names), encoding="utf-8") as file:
        return file.read()


@functools.cache
def is_installed(tool, otherwise):
    """Whether a tool is installed; what is done otherwise is told once."""
    if not shutil.which(tool):
        print("%s is not installed: %s" % (tool, otherwise), file=sys.stderr)
    return shutil.which(tool) is not None


def compilers(needed, other):
    """The compilers to try: one that must be installed, and another that may be."""
    if not shutil.which(needed):
        raise AssertionError("%s is not installed" % needed)
    return [needed] + [other] * is_installed(other, "only %s is tried" % needed)


def c_compilers():
    return compilers("gcc", "clang")


def cxx_compilers():
    return compilers("g++", "clang++")


def compiled(compiler, *words):
    """A run of a compiler with all warnings as errors."""
    return subprocess.run([compiler, *WARNINGS, "-I", os.path.dirname(HEADER), *words], capture_output=True, text=True, timeout=SECONDS)


class Library(unittest.TestCase):
    """A folder for each test, and programs linked with the static library."""

    @classmethod
    def setUpClass(cls):
        if not os.path.exists(LIBRARY):
            raise AssertionError("there is no target/staticlib/libtracker.a: tools/build builds it")

    def setUp(self):
        self.folder = tempfile.mkdtemp()
        self.addCleanup(shutil.rmtree, self.folder)

    def path(self, name):
        return os.path.join(self.folder, name)

    def file(self, name, text):
        """Writes a file and gives its path."""
        with open(self.path(name), "wb") as file:
            file.write(text if isinstance(text, bytes) else text.encode("utf-8"))
        return self.path(name)

    def build(self, source, *words, compiler="gcc", name="program"):
        """The path of a program, built from a source of the repository with sanitizers."""
        run = compiled(compiler, *SANITIZERS, *words, os.path.join(ROOT, source), LIBRARY, "-o", self.path(name))
        self.assertEqual((run.returncode, run.stderr), (0, ""))
        return self.path(name)
