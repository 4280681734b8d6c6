"""The version stands in the file VERSION; all that shows one shows this."""
import re
import subprocess
import sys
import unittest

import building

VERSION = building.content("VERSION").strip()


class Version(unittest.TestCase):
    def shown(self, *command):
        run = subprocess.run(command, capture_output=True, text=True, timeout=building.SECONDS)
        self.assertEqual((run.returncode, run.stderr), (0, ""))
        return run.stdout

    def test_form(self):
        self.assertRegex(VERSION, r"\A\d+\.\d+\.\d+\Z")

    def test_header(self):
        found = dict(re.findall(r"#define CLAIM_TRACKER_(VERSION\w*) (\S+)", building.content("include", "claim_tracker.h")))
        self.assertEqual(found, {"VERSION": '"%s"' % VERSION} | dict(
            zip(("VERSION_MAJOR", "VERSION_MINOR", "VERSION_PATCH"), VERSION.split("."))))

    def test_programs(self):
        self.assertEqual(self.shown(building.CLAIMRUN, "--version"), "claimrun %s\n" % VERSION)
        self.assertEqual(self.shown(sys.executable, building.ROOT + "/tools/claimdesk", "--version"), "claimdesk %s\n" % VERSION)

    def test_option_alone(self):
        """claimdesk refuses --version beside anything else."""
        for more in ("run", "x", "--version"):
            run = subprocess.run([sys.executable, building.ROOT + "/tools/claimdesk", "--version", more], capture_output=True, text=True)
            self.assertEqual((run.returncode, run.stdout), (2, ""))
            self.assertIn("--version stands alone", run.stderr)

    def test_texts(self):
        self.assertIn('\n__version__ = "%s"\n' % VERSION, building.content("python", "claim_tracker.py"))
        self.assertEqual(re.findall(r"(?m)^## (.*)", building.content("CHANGELOG.md"))[0], VERSION)


if __name__ == "__main__":
    unittest.main()
