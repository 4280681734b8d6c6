"""The header: it says what the crates export, compilers take it and watch over its calls, and its numbers are the desk's."""
import os
import re
import subprocess
import sys
import unittest

import building
import declarations

sys.path.insert(0, os.path.join(building.ROOT, "tools"))
from desk import claims, layout  # noqa: E402

SOURCE = os.path.join(building.HERE, "header.c")
IN_WORDS = {0: "accepted", 1: "length", 2: "calendar", 3: "tables", 4: "day", 5: "record", 6: "security", 7: "decrease", 8: "increase",
            9: "close", 10: "buffer", 11: "count", 12: "date limits", 13: "the pieces", 14: "no multiple", 15: "lending", 16: "not 1 to 4",
            17: "unset", 18: "forecast", 19: "go past", 132: "more than one", 133: "without }", 135: "no date", 138: "after", 139: "not the day"}
BENCH_CALLS = ["open", "carry_over", "set_mark", "return_to_mark", "transfer", "transfer_with_limits", "close", "serve", "forecast"]


class Exports(unittest.TestCase):
    """The header against the text of the crates."""
    maxDiff = None

    def test_functions(self):
        header, exports = declarations.header_functions(), declarations.exports()
        self.assertEqual(len(exports), 19)
        self.assertEqual(header, exports)

    def test_structs(self):
        header, exported = declarations.header_structs(), declarations.exported_structs()
        self.assertEqual(sorted(exported), sorted(declarations.STRUCTS.values()))
        self.assertEqual(header, exported)

    def test_functions_of_the_bench(self):
        """The bench declares the calls by hand: each has the arguments and the result of its export."""
        declared, exports = declarations.bench_functions(), declarations.exports()
        self.assertEqual(list(declared), ["claim_tracker_" + name for name in BENCH_CALLS])
        self.assertEqual(declared, {name: exports[name] for name in declared})

    def test_structs_of_the_bench(self):
        declared, exported = declarations.bench_structs(), declarations.exported_structs()
        self.assertEqual(list(declared), ["claim_tracker_book", "claim_tracker_done", "claim_tracker_served", "claim_tracker_cash",
                                          "claim_tracker_cash_forecast"])
        self.assertEqual(declared, {name: exported[name] for name in declared})


class Compilers(building.Library):
    def words(self, compiler, standard, *more):
        """What header.c prints."""
        run = building.compiled(compiler, *building.SANITIZERS, "-std=" + standard, *more, SOURCE, "-o", self.path("program"))
        self.assertEqual((run.returncode, run.stderr), (0, ""))
        return subprocess.run([self.path("program")], capture_output=True, text=True, timeout=building.SECONDS, check=True).stdout

    def test_taken_as_c_and_cxx(self):
        tries = [(compiler, standard) for compiler in building.c_compilers() for standard in ("c99", "c11")]
        tries += [(compiler, "c++17", "-x", "c++") for compiler in building.cxx_compilers()]
        numbers = declarations.enumerators()["claim_tracker_number"].values()
        for one in tries:
            with self.subTest(one=one):
                words = dict(line.split(" ", 1) for line in self.words(*one).splitlines())
                self.assertEqual(sorted(map(int, words)), sorted(numbers))
                self.assertEqual(len(set(words.values())), len(words))
                for number, word in IN_WORDS.items():
                    self.assertIn(word, words[str(number)])

    def calls(self, change):
        """A source with a function for each line that calls one of the library with changed arguments, and the lines' numbers."""
        lines = ['#include "claim_tracker.h"']
        for name, (returned, arguments) in declarations.header_functions().items():
            arguments = [(argument or "count%d" % place, "size_t" if argument is None else kind)
                         for place, (argument, kind) in enumerate(arguments)]
            taken = ", ".join("%s %s" % (re.sub(r"\[\d+\]", " *", kind), argument) for argument, kind in arguments)
            for call in change(returned, name, arguments):
                lines.append("void call%d(%s); void call%d(%s) {%s}" % (len(lines), taken, len(lines), taken, call))
        return self.file("calls.c", "\n".join(lines) + "\n"), set(range(2, len(lines) + 1))

    def refused(self, compiler, path, option):
        """The lines that a compiler refuses for one kind of warning."""
        every = ["-ferror-limit=0"] if "clang" in compiler else []
        run = building.compiled(compiler, "-std=c11", *every, "-Wno-unused-parameter", "-c", path, "-o", self.path("calls.o"))
        return {int(line) for line in re.findall(r"calls\.c:(\d+):\d+: error: .*\[-Werror[=,]-?W?%s\]" % option, run.stderr)}, run

    def test_unused_answers(self):
        """A call whose answer is dropped does not pass."""
        path, lines = self.calls(lambda returned, name, arguments: ["%s(%s);" % (name, ", ".join(next(zip(*arguments))))])
        self.assertEqual(len(lines), 19)
        for compiler in building.c_compilers():
            with self.subTest(compiler=compiler):
                self.assertEqual(self.refused(compiler, path, "unused-(?:result|value)")[0], lines)

    def test_null_pointers(self):
        """Nor does a call with a null pointer, whichever it is."""
        def change(returned, name, arguments):
            for changed, kind in arguments:
                if kind.endswith(("*", "]")):
                    given = ", ".join("0" if argument == changed else argument for argument, _ in arguments)
                    yield "%s found = %s(%s); (void)found;" % (returned, name, given)
        path, lines = self.calls(change)
        self.assertEqual(len(lines), 59)
        for compiler in building.c_compilers():
            with self.subTest(compiler=compiler):
                self.assertEqual(self.refused(compiler, path, "nonnull")[0], lines)

    def test_right_calls_pass(self):
        """So that the two tests above are refused for what they say."""
        path, _ = self.calls(lambda returned, name, arguments: [
            "%s found = %s(%s); (void)found;" % (returned, name, ", ".join(next(zip(*arguments))))])
        for compiler in building.c_compilers():
            self.assertEqual(self.refused(compiler, path, ".*")[1].returncode, 0)

    def test_no_state(self):
        """The library has no data that it could write to."""
        sizes = subprocess.run(["size", building.LIBRARY], capture_output=True, text=True, check=True).stdout.splitlines()[1:]
        self.assertTrue(sizes)
        for line in sizes:
            self.assertEqual(line.split()[1:3], ["0", "0"], line)


class Numbers(unittest.TestCase):
    """The enumerators against the desk, which has its own tables."""

    def enum(self, name, prefix):
        """The values of an enum by their names without the prefix."""
        found = declarations.enumerators()["claim_tracker_" + name]
        self.assertTrue(all(word.startswith(prefix) for word in found))
        return {word[len(prefix):]: value for word, value in found.items()}

    def named(self, names):
        """The names of the desk as the header writes them."""
        return {re.sub(r"\W+", "_", name).upper(): value for name, value in names.items()}

    def test_names(self):
        self.assertEqual(self.enum("code", "CLAIM_TRACKER_CODE_"), self.named(layout.CODES))
        self.assertEqual(self.enum("frequency", "CLAIM_TRACKER_FREQUENCY_"), self.named(layout.FREQUENCIES))
        self.assertEqual(self.enum("security_type", "CLAIM_TRACKER_SECURITY_"), {"UNUSED": 0} | self.named(layout.TYPES))
        self.assertEqual(self.enum("claim_type", "CLAIM_TRACKER_CLAIM_TYPE_"),
                         self.named({name: number for number, name in claims.CLAIM_TYPES.items()}))
        self.assertEqual(self.enum("class", "CLAIM_TRACKER_CLASS_"),
                         {"SECONDARY_MARKET": layout.MARKETS["secondary"], "OTHER": layout.MARKETS["other"]})

    def test_numbers(self):
        self.assertEqual(sorted(self.enum("number", "CLAIM_TRACKER_").values()), sorted(claims.MEANINGS))
        self.assertEqual(sorted(self.enum("outcome", "CLAIM_TRACKER_OUTCOME_").values()), [0, *claims.NOTICES])
        self.assertEqual(self.enum("slot", "CLAIM_TRACKER_SLOT_"), {"NONE": 0} | {
            {"8:05": "AT_0805", "8:45": "AT_0845", "during the day": "DURING_DAY"}[name]: slot for slot, name in claims.TIMES.items()})
        kinds = (("TRANSFER", layout.TRANSFER_HEADER), ("CLOSE", layout.CLOSE_HEADER), ("CLAIM", layout.CLAIM_HEADER),
                 ("ANSWER", layout.ANSWER_HEADER))
        self.assertEqual(self.enum("kind", "CLAIM_TRACKER_KIND_"), {name: header[1] for name, header in kinds})
        sizes = declarations.enumerators()[""]
        for name, header in kinds:
            self.assertEqual(sizes["CLAIM_TRACKER_%s_BYTES" % name], header[0] + 2)
        self.assertEqual(sizes["CLAIM_TRACKER_BOOK_FILE_BYTES"], layout.BOOK.size)


if __name__ == "__main__":
    unittest.main()
