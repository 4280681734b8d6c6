"""The commands tools/build, tools/test and tools/example: their help, arguments that they do not know, what is built and what is counted."""
import os
import shutil
import subprocess
import unittest

import common

SCRIPTS = ("build", "test", "example")
OK = "rt: ok; handles allowed: none; must-fail edits: 4 refused%s; every proof and must-fail edit was done in this run\n5 passed, 0 failed\n"
OTHERS = 7                                           # the tests that tools/test runs beside rt ci
ENDS = (                                             # what rt ci prints, its status, what tools/test counts as passed and failed
    (OK % "", 0, 5, 0), (OK % ", 0 bad", 0, 5, 0), (OK % ", 2 bad", 0, 5, 2), (OK % ", 1 of them only by a limit, 10 bad", 0, 5, 10),
    ("rt: FAILED: lists\n3 passed, 2 failed\n", 1, 3, 2), ("5 passed, 0 failed (lists and the crates below alone: not the gate)\n", 0, 5, 1),
    ("5 passed, 0 failed\n", 1, 5, 1), (OK % "", 1, 5, 1), ("", 2, 0, 1), ("", 0, 0, 1))


class Copies(common.Desk):
    """The scripts in a folder of their own, with other programs before those of the system."""

    def setUp(self):
        super().setUp()
        for folder in ("tools", "bin"):
            os.mkdir(self.path(folder))
        for name in SCRIPTS:
            shutil.copy(os.path.join(common.TOOLS, name), self.path("tools"))

    def program(self, name, text):
        """A shell script of the folder."""
        os.makedirs(os.path.dirname(self.path(name)), exist_ok=True)
        os.chmod(self.file(name, "#!/bin/sh\n%s\n" % text), 0o755)

    def end(self, name, *args):
        """The end of a script."""
        return subprocess.run([self.path("tools/" + name), *args], capture_output=True, text=True, timeout=60,
                              env=os.environ | {"PATH": self.path("bin") + ":" + os.environ["PATH"]})


class Scripts(Copies):
    """Their rt leaves a mark where it is called."""

    def setUp(self):
        super().setUp()
        self.program("bin/rt", 'touch "%s"\nexit 1' % self.path("mark"))

    def script(self, name, *args):
        """The end of a script, and whether it has touched anything."""
        before = sorted(os.listdir(self.folder))
        run = self.end(name, *args)
        return run, sorted(os.listdir(self.folder)) != before

    def test_help(self):
        for name in SCRIPTS:
            for option in ("--help", "-h"):
                run, touched = self.script(name, option)
                self.assertEqual((run.returncode, run.stderr, touched), (0, "", False))
                self.assertTrue(run.stdout.startswith("usage: tools/%s\n" % name), run.stdout)

    def test_unknown_arguments(self):
        for name in SCRIPTS:
            for args in (("--hlep",), ("claimrun",), ("",), ("--help", "x"), ("x", "--help")):
                run, touched = self.script(name, *args)
                self.assertEqual((run.returncode, run.stdout, touched), (2, "", False))
                self.assertRegex(run.stderr, r"\Atools/%s: [^\n]*; allowed: [^\n]*\n\Z" % name)

    def test_without_arguments_they_work(self):
        """So that the mark shows what it should."""
        for name in SCRIPTS:
            run, touched = self.script(name)
            self.assertEqual((run.returncode, touched), (1, True))
            os.remove(self.path("mark"))


class Gate(Copies):
    def test_counts_of_rt_ci(self):
        """Bad edits fail, and so does an rt ci that fails or does not say that all is well."""
        for name in ("bin/python3", "tools/build", "tests/c/run"):
            self.program(name, "exit 0")
        for printed, status, passed, failed in ENDS:
            with self.subTest(printed=printed, status=status):
                self.file("printed", printed)
                self.program("bin/rt", 'echo "$*" > "%s"\ncat "%s"\nexit %d' % (self.path("words"), self.path("printed"), status))
                run = self.end("test")
                self.assertEqual(common.content(self.path("words")), b"ci\n")
                self.assertEqual(run.stdout.splitlines()[-1], "%d passed, %d failed" % (passed + OTHERS, failed))
                self.assertEqual(run.returncode, int(failed > 0))


class Build(Copies):
    """tools/build over two crates, with an rt that notes where it is called and makes what the script copies."""

    def setUp(self):
        super().setUp()
        self.file("crates.txt", "tracker_c staticlib:\nclaimrun:\n")
        for crate in ("tracker_c", "claimrun"):
            os.makedirs(self.path("crates/%s/src" % crate))
            self.file("crates/%s/src/main.rt" % crate, "")
        self.rt("a", 0)

    def rt(self, made, status):
        """The program rt: its version is 1."""
        self.program("bin/rt", """[ "$*" = version ] && echo 1 && exit
echo "${PWD##*/} $*" >> "%s"
mkdir -p out && for file in libtracker_c.a claimrun; do echo %s > out/$file; done
exit %d""" % (self.path("words"), made, status))

    def builds(self, calls, *args, status=0):
        """A run of the script: the calls of rt that it makes, its status, and what it says on standard error."""
        self.file("words", "")
        run = self.end("build", *args)
        self.assertEqual((run.returncode, run.stdout), (status, ""))
        self.assertEqual(common.content(self.path("words")).decode().splitlines(), calls)
        return run.stderr

    def built(self):
        return [common.content(self.path("target/" + name)) for name in ("staticlib/libtracker.a", "bin/claimrun")]

    def test_builds_what_has_changed(self):
        library, program = "tracker_c lib", "claimrun run -- --version"
        self.builds([library], "library")
        self.builds([program])
        self.assertEqual(self.built(), [b"a\n", b"a\n"])
        self.assertEqual(self.builds([]), "")
        self.file("crates/claimrun/stray", "")
        os.makedirs(self.path("crates/claimrun/must-fail"))
        self.builds([library, program])
        self.file("crates/claimrun/must-fail/one.edit", "")
        self.file("crates/claimrun/out/kept", "")
        self.builds([])
        os.remove(self.path("target/bin/claimrun"))
        self.builds([program])
        self.file("target/staticlib/libtracker.a", "another")
        self.rt("b", 0)
        self.builds([library])
        self.assertEqual(self.built(), [b"b\n", b"a\n"])

    def test_failure(self):
        """It says what failed, builds it again the next time, and leaves what was built before."""
        self.builds(["tracker_c lib", "claimrun run -- --version"])
        self.file("crates/tracker_c/src/main.rt", "x")
        self.rt("b", 1)
        for _ in range(2):
            self.assertEqual(self.builds(["tracker_c lib"], status=1).splitlines()[-1],
                             "tools/build: target/staticlib/libtracker.a is not built: 'rt lib' failed in crates/tracker_c; all that it said "
                             "stands in target/library.log")
        self.assertEqual(self.built(), [b"a\n", b"a\n"])


if __name__ == "__main__":
    unittest.main()
