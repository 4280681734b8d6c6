"""tools/install: what stands where, programs built against it, the shared library's names, and that the installed programs work."""
import argparse
import json
import os
import re
import shutil
import subprocess
import sys
import unittest

sys.path.insert(0, os.path.join(os.path.dirname(os.path.dirname(os.path.abspath(__file__))), "c"))
import building  # noqa: E402
import declarations  # noqa: E402

sys.path.insert(0, os.path.join(building.ROOT, "tools"))
from desk import cli  # noqa: E402

ROOT = building.ROOT
COMMAND = os.path.join(ROOT, "tools", "install")
EXAMPLE = os.path.join(ROOT, "examples", "first_claim.c")
EXPECTED = "0 accepted, transfer 1\naccount 1 pays account 2 100000 cents of interest on 20230417\n"
VERSION = building.content("VERSION").strip()
LINKS = {"lib/libclaim_tracker.so": "libclaim_tracker.so.2", "lib/libclaim_tracker.so.2": "libclaim_tracker.so." + VERSION,
         "bin/claimdesk": "../lib/claim_tracker/claimdesk", "lib/claim_tracker/claimrun": "../../bin/claimrun",
         "lib/claim_tracker/python/libclaim_tracker.so.2": "../../libclaim_tracker.so.2"}
PROGRAMS = {"bin/claimrun", "lib/claim_tracker/claimdesk", "lib/libclaim_tracker.so." + VERSION}
TEXTS = {"include/claim_tracker.h", "lib/libclaim_tracker.a", "lib/pkgconfig/claim_tracker.pc", "lib/claim_tracker/VERSION",
         "lib/claim_tracker/python/claim_tracker.py", "share/man/man1/claimrun.1", "share/man/man1/claimdesk.1",
         "share/man/man3/claim_tracker.3", "share/doc/claim_tracker/FORMATS.md", "share/doc/claim_tracker/DESK.md",
         "share/doc/claim_tracker/CHANGELOG.md",
         "share/doc/claim_tracker/examples/first_claim.c", "share/doc/claim_tracker/examples/carry_over.c",
         "share/doc/claim_tracker/examples/mark_and_return.c", "share/doc/claim_tracker/examples/serve_stream.c",
         "share/doc/claim_tracker/examples/cash_forecast.c"}
DESK = {"lib/claim_tracker/desk/" + name for name in os.listdir(os.path.join(ROOT, "tools", "desk")) if name.endswith(".py")}


def files_below(folder):
    """All files and links below a folder, by their paths from it."""
    return {os.path.relpath(os.path.join(where, name), folder) for where, _, names in os.walk(folder) for name in names}


def commands_of(parser, name=""):
    """The commands of a parser, with their options."""
    inner = [action for action in parser._actions if action.nargs == argparse.PARSER]
    if not inner:
        yield name, {option for action in parser._actions for option in action.option_strings}
    for word, below in inner[0].choices.items() if inner else ():
        yield from commands_of(below, (name + " " + word).strip())


class Install(building.Library):
    """An installation of its own for each test that asks for one."""

    @classmethod
    def setUpClass(cls):
        super().setUpClass()
        if not os.path.exists(building.CLAIMRUN):
            raise AssertionError("there is no target/bin/claimrun: tools/build builds it")

    def install(self, *arguments, command=COMMAND, **environment):
        """A run of tools/install."""
        return subprocess.run([command, *arguments], capture_output=True, text=True, timeout=building.SECONDS, cwd=self.folder,
                              env=os.environ | {"DESTDIR": ""} | environment)

    def prefix(self):
        """A new installation, and where it stands."""
        prefix = self.path("prefix")
        run = self.install(prefix)
        self.assertEqual((run.returncode, run.stderr), (0, ""))
        return prefix

    def run_text(self, *words, **more):
        """Standard output of a command that must succeed without a word on standard error."""
        run = subprocess.run(words, capture_output=True, text=True, timeout=building.SECONDS, cwd=self.folder, **more)
        self.assertEqual((run.returncode, run.stderr), (0, ""), words)
        return run.stdout


class Arguments(Install):
    def test_help(self):
        for option in ("--help", "-h"):
            run = self.install(option)
            self.assertEqual((run.returncode, run.stderr, os.listdir(self.folder)), (0, "", []))
            self.assertTrue(run.stdout.startswith("usage: tools/install PREFIX\n"))

    def test_unknown_arguments(self):
        good = self.path("prefix")
        for arguments in ((), ("",), ("--hlep",), ("prefix",), ("./prefix",), (good, good), ("--help", good), (good, "--help"),
                          (self.path("a b"),), (self.path("a'b"),), (self.path("$(touch mark)"),)):
            with self.subTest(arguments=arguments):
                run = self.install(*arguments)
                self.assertEqual((run.returncode, run.stdout, os.listdir(self.folder)), (2, "", []))
                self.assertRegex(run.stderr, r"\Atools/install: [^\n]*; allowed: [^\n]*\n\Z")
        self.assertEqual(self.install(good, DESTDIR="here").returncode, 2)
        self.assertEqual(os.listdir(self.folder), [])

    def copy(self):
        """tools/install in a repository where nothing is built."""
        os.makedirs(self.path("repository/tools"))
        shutil.copy(COMMAND, self.path("repository/tools"))
        shutil.copy(os.path.join(ROOT, "VERSION"), self.path("repository"))
        return self.path("repository/tools/install")

    def test_missing_parts(self):
        command = self.copy()
        run = self.install(self.path("prefix"), command=command)
        self.assertEqual((run.returncode, run.stdout), (1, ""))
        self.assertEqual(run.stderr, "tools/install: nothing is installed yet; first: tools/build\n")
        run = self.install(self.path("prefix"), command=command, CC="no-such-compiler")
        self.assertIn("first: tools/build, a C compiler (no-such-compiler)\n", run.stderr)
        self.assertFalse(os.path.exists(self.path("prefix")))

    def test_another_version(self):
        command = self.copy()
        for folder in ("bin", "staticlib"):
            os.makedirs(self.path("repository/target/" + folder))
        shutil.copy(building.LIBRARY, self.path("repository/target/staticlib"))
        os.chmod(self.file("repository/target/bin/claimrun", "#!/bin/sh\necho claimrun 0.9.0\n"), 0o755)
        run = self.install(self.path("prefix"), command=command)
        self.assertEqual((run.returncode, run.stdout), (1, ""))
        self.assertIn("is not version %s; first: tools/build\n" % VERSION, run.stderr)
        self.assertFalse(os.path.exists(self.path("prefix")))


class Files(Install):
    def test_files(self):
        prefix = self.prefix()
        found = files_below(prefix)
        self.assertEqual(found, TEXTS | PROGRAMS | DESK | set(LINKS))
        for name in found:
            path = os.path.join(prefix, name)
            if name in LINKS:
                self.assertEqual(os.readlink(path), LINKS[name])
                self.assertTrue(os.path.isfile(path), name)
            else:
                self.assertEqual(oct(os.lstat(path).st_mode & 0o7777), oct(0o755 if name in PROGRAMS else 0o644), name)

    def test_no_path_of_the_repository(self):
        prefix = self.prefix()
        for name in files_below(prefix):
            with open(os.path.join(prefix, name), "rb") as file:
                self.assertFalse(ROOT.encode() in file.read(), name)

    def test_again(self):
        """Over an installation that is there, with a slash behind the prefix, the same stands there; a strict umask changes nothing."""
        prefix = self.prefix()
        before = files_below(prefix)
        os.remove(os.path.join(prefix, "lib/libclaim_tracker.so"))
        os.chmod(os.path.join(prefix, "include/claim_tracker.h"), 0o400)
        mask = os.umask(0o077)
        try:
            self.assertEqual(self.install(prefix + "/").returncode, 0)
        finally:
            os.umask(mask)
        self.assertEqual(files_below(prefix), before)
        self.assertEqual(os.lstat(os.path.join(prefix, "include/claim_tracker.h")).st_mode & 0o7777, 0o644)
        self.assertEqual(self.pc_lines(prefix)[0], "prefix=" + prefix)

    def pc_lines(self, prefix):
        with open(os.path.join(prefix, "lib/pkgconfig/claim_tracker.pc"), encoding="utf-8") as file:
            return file.read().splitlines()

    def test_destdir(self):
        """All files go below DESTDIR, and name the prefix alone."""
        run = self.install("/claims", DESTDIR=self.path("packed here"))
        self.assertEqual((run.returncode, run.stderr), (0, ""))
        self.assertEqual(os.listdir(self.path("packed here")), ["claims"])
        prefix = self.path("packed here/claims")
        self.assertEqual(files_below(prefix), TEXTS | PROGRAMS | DESK | set(LINKS))
        self.assertEqual(self.pc_lines(prefix)[0], "prefix=/claims")
        self.assertEqual(self.run_text(os.path.join(prefix, "bin/claimdesk"), "--version"), "claimdesk %s\n" % VERSION)

    def test_man_page_of_the_desk(self):
        """It names each command with each of its options, and no other options."""
        page = building.content("docs", "man", "claimdesk.1").replace("\\-", "-")
        parts = {re.sub(r"\s+-.*", "", part.split("\n")[0]): part for part in re.split(r"(?m)^\.B claimdesk ", page)[1:]}
        commands = dict(commands_of(cli.parser()))
        self.assertEqual(sorted(name for name in parts if not name.startswith("-")), sorted(commands))
        for name, options in commands.items():
            text = parts[name].split("\n.br")[0].split("\n.SH")[0]
            self.assertEqual(set(re.findall(r"(?<![\w-])--?[a-z]+", text)) - {"-o"}, options - {"-o", "-h", "--help", "--output"}, name)

    def test_source_of_the_man_page(self):
        """The source that it shows gives its claim."""
        page = building.content("docs", "man", "claimdesk.1").replace("\\-", "-")
        source = re.search(r"(?s)\n\.nf\n(opening_day.*?)\.fi\n", page)[1]
        shown = self.run_text(os.path.join(ROOT, "tools", "claimdesk"), "run", self.file("source.toml", source), "--format", "json")
        claims = [record for record in json.loads(shown) if record["record"] == "claim"]
        self.assertEqual([(claim["payer_name"], claim["interest"], claim["release_date"]) for claim in claims],
                         [("My Bank", "900.00", "2024-07-03")])

    def test_man_pages(self):
        """groff has no warning for them, and man finds them."""
        pages = [os.path.join(ROOT, "docs", "man", name) for name in sorted(os.listdir(os.path.join(ROOT, "docs", "man")))]
        self.assertEqual(len(pages), 3)
        for page in pages:
            self.assertRegex(building.content(page), r'(?m)^\.TH \w+ [13] "" "claim_tracker %s" ' % re.escape(VERSION))
        if not building.is_installed("groff", "the man pages are not laid out"):
            return
        for page in pages:
            self.assertEqual(self.run_text("groff", "-man", "-ww", "-z", "-Tutf8", page), "")
        if not building.is_installed("man", "the man pages are not looked up"):
            return
        manuals = os.path.join(self.prefix(), "share/man")
        plain = os.environ | {"MANWIDTH": "120", "LC_ALL": "C"}
        for name, words in (("claimrun", "book.dat"), ("claimdesk", "claims check"), ("claim_tracker", "claim_tracker_serve")):
            self.assertIn(words, self.run_text("man", "-P", "cat", "-M", manuals, name, env=plain))


class Building(Install):
    """Programs built against an installation."""

    def words(self, prefix, wanted):
        """What pkg-config says; its file is read here too, and where pkg-config is installed both must agree."""
        values = {}
        with open(os.path.join(prefix, "lib/pkgconfig/claim_tracker.pc"), encoding="utf-8") as file:
            for line in file:
                if match := re.match(r"(\w+)\s*[=:]\s*(.*)", line):
                    values[match[1]] = re.sub(r"\$\{(\w+)\}", lambda name: values[name[1]], match[2])
        read = [word for key in wanted for word in values[key].split()]
        if not building.is_installed("pkg-config", "its file is read by the test alone"):
            return read
        options = [{"Cflags": "--cflags", "Libs": "--libs", "Version": "--modversion", "pythondir": "--variable=pythondir"}[key]
                   for key in wanted]
        found = self.run_text("pkg-config", *options, "claim_tracker",
                              env=os.environ | {"PKG_CONFIG_PATH": os.path.join(prefix, "lib/pkgconfig")}).split()
        self.assertEqual(found, read)
        return found

    def needed(self, path):
        """The shared libraries that a program asks for."""
        return re.findall(r"\(NEEDED\).*\[(.*)\]", self.run_text("readelf", "-d", path))

    def test_shared_and_static(self):
        prefix = self.prefix()
        flags, libs = self.words(prefix, ["Cflags"]), self.words(prefix, ["Libs"])
        self.assertEqual(flags + libs, self.words(prefix, ["Cflags", "Libs"]))
        tries = {"shared": libs, "static": ["-Wl,-Bstatic", *libs, "-Wl,-Bdynamic"]}
        for name, words in tries.items():
            with self.subTest(name=name):
                self.run_text("cc", *building.WARNINGS, "-std=c99", *flags, EXAMPLE, *words, "-o", self.path(name))
                self.assertEqual("libclaim_tracker.so.2" in self.needed(self.path(name)), name == "shared")
        libraries = os.environ | {"LD_LIBRARY_PATH": os.path.join(prefix, "lib")}
        self.assertEqual(self.run_text(self.path("shared"), env=libraries), EXPECTED)
        self.assertEqual(self.run_text(self.path("static")), EXPECTED)

    def test_version_and_python_folder(self):
        prefix = self.prefix()
        self.assertEqual(self.words(prefix, ["Version"]), [VERSION])
        self.assertEqual(self.words(prefix, ["pythondir"]), [os.path.join(prefix, "lib/claim_tracker/python")])

    def test_shared_library(self):
        """Its SONAME, and exactly the functions of the header; of others it needs the C library alone."""
        path = os.path.join(self.prefix(), "lib/libclaim_tracker.so." + VERSION)
        self.assertEqual(re.findall(r"\(SONAME\).*\[(.*)\]", self.run_text("readelf", "-d", path)), ["libclaim_tracker.so.2"])
        self.assertEqual(self.needed(path), ["libc.so.6"])
        symbols = [line.split()[-1] for line in self.run_text("nm", "-D", "--defined-only", path).splitlines()]
        self.assertEqual(sorted(symbols), sorted(declarations.header_functions()))


class Programs(Install):
    """The installed programs, away from the repository."""

    def test_claimrun(self):
        program = os.path.join(self.prefix(), "bin/claimrun")
        self.assertEqual(self.run_text(program, "--version"), "claimrun %s\n" % VERSION)
        data = os.path.join(ROOT, "crates", "claimrun")
        shutil.copy(os.path.join(data, "data", "book.dat"), self.folder)
        with open(os.path.join(data, "stdin"), "rb") as given, open(os.path.join(data, "stdout"), "rb") as expected:
            run = subprocess.run([program], stdin=given, capture_output=True, cwd=self.folder, timeout=building.SECONDS)
            self.assertEqual((run.returncode, run.stderr, run.stdout), (0, b"", expected.read()))

    def test_claimdesk(self):
        prefix = self.prefix()
        desk, claimrun = os.path.join(prefix, "bin/claimdesk"), os.path.join(prefix, "bin/claimrun")
        source = os.path.join(ROOT, "examples", "workshop.toml")
        self.assertEqual(self.run_text(desk, "--version"), "claimdesk %s\n" % VERSION)
        self.assertEqual(self.run_text(desk, "run", source), building.content("examples/output/workshop.txt"))
        os.remove(claimrun)
        os.chmod(self.file("prefix/bin/claimrun", "#!/bin/sh\nexit 3\n"), 0o755)
        run = subprocess.run([desk, "run", source], capture_output=True, text=True, timeout=building.SECONDS)
        self.assertEqual((run.returncode, run.stdout), (1, ""))
        self.assertIn("claimrun ended with status 3", run.stderr)

    def test_forecast(self):
        """The installed claimdesk finds the installed library, and needs no variable for it; another file may be named."""
        desk = os.path.join(self.prefix(), "bin/claimdesk")
        words = [desk, "forecast", os.path.join(ROOT, "crates", "claimrun", "stdout"), "--account", "1", "--date", "2023-04-17"]
        plain = {name: value for name, value in os.environ.items() if name != "CLAIM_TRACKER_LIBRARY"}
        self.assertEqual(self.run_text(*words, env=plain), "account  release       to pay  to receive  receive less pay\n"
                                                           "1        2023-04-17  1,000.00        0.00         -1,000.00\n")
        run = subprocess.run(words, capture_output=True, text=True, timeout=building.SECONDS,
                             env=plain | {"CLAIM_TRACKER_LIBRARY": self.path("none.so")})
        self.assertEqual((run.returncode, run.stdout), (1, ""))
        self.assertIn("there is no library %s" % self.path("none.so"), run.stderr)


if __name__ == "__main__":
    unittest.main()
