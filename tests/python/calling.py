"""Makes the calls of a list through the Python module and prints what tests/c/calls.c prints for them."""
import struct
import zlib
from array import array

import claim_tracker


def hexed(data):
    return bytes(data).hex() or "-"


def bytes_of(word):
    return b"" if word == "-" else bytes.fromhex(word)


def words_of(word):
    return array("I", [] if word == "-" else map(int, word.split(",")))


class Caller:
    """Words, balances and a book that calls are made on."""

    def __init__(self):
        self.words = {"calendar": array("I", bytes(4 * 2 * claim_tracker.CALENDAR_WORDS)),
                      "tables": array("I", bytes(4 * 2 * claim_tracker.TABLE_WORDS)),
                      "balances": array("Q", bytes(8 * 2 * claim_tracker.BALANCE_WORDS)),
                      "saved": array("Q", bytes(8 * 2 * claim_tracker.LENDING_WORDS)),
                      "store": array("Q", bytes(8 * (claim_tracker.STORE_WORDS + 20)))}
        self.lengths = [claim_tracker.CALENDAR_WORDS, claim_tracker.TABLE_WORDS, claim_tracker.BALANCE_WORDS]
        self.book = claim_tracker.Book(0)
        self.pieces = {}

    def lent(self):
        """Calendar, tables and balances, as much of them as the three lengths say."""
        return [memoryview(words)[:length] for words, length in zip(self.words.values(), self.lengths)]

    def sum(self, name="balances"):
        return "%08x" % zlib.crc32(self.words[name].tobytes())

    def left(self, buffer, written):
        return "book %d %d %s %08x %s" % (self.book.day, self.book.count, hexed(buffer[:written]), zlib.crc32(buffer), self.sum())

    def line(self, text):
        """What is printed for a line of the list; nothing for one that puts words."""
        name, *words = text.split()
        if name in self.words:
            self.words[name][int(words[0])] = int(words[1])
        elif name == "lengths":
            self.lengths = list(map(int, words))
        elif name == "pieces":
            self.pieces = {"pieces": words_of(words[0])}
        elif name == "book":
            self.book = claim_tracker.Book(*map(int, words))
        elif name == "text":
            return "text " + claim_tracker.text(int(words[0]))
        elif name == "open":
            calendar, tables, balances = self.lent()
            done = claim_tracker.open(calendar, tables, balances, int(words[0]))
            self.book = done.book
            return "open %d claims %d book %d %d %s" % (done.number, done.claims, self.book.day, self.book.count, self.sum())
        elif name == "carry_over":
            return self.carry_over(int(words[0]))
        elif name in ("set_mark", "return_to_mark"):
            return self.mark(name, *map(int, words))
        elif name == "forecast":
            found = claim_tracker.forecast(bytes_of(words[2]), int(words[0]), int(words[1]))
            return "forecast %d %s" % (found.number, " ".join(struct.pack(">d", figure).hex() for figure in found.cash))
        elif name.startswith("read_"):
            return self.read(name, bytes_of(words[0]))
        elif name.startswith("write_"):
            return self.write(name, words)
        elif name == "serve":
            return self.serve(*words)
        else:
            return self.call(name, *words)
        return None

    def carry_over(self, count):
        calendar, _, balances = self.lent()
        done = claim_tracker.carry_over(calendar, self.book, memoryview(self.words["saved"])[:count], balances)
        self.book = done.book
        return "carry_over %d claims %d book %d %d %s %s" % (
            done.number, done.claims, self.book.day, self.book.count, self.sum("saved"), self.sum())

    def mark(self, name, count, mark):
        calendar, _, balances = self.lent()
        answer = getattr(claim_tracker, name)(calendar, self.book, balances, memoryview(self.words["store"])[:count], mark)
        if name == "set_mark":
            made = "%d" % answer
        else:
            self.book = answer.book
            made = "%d claims %d book %d %d" % (answer.number, answer.claims, self.book.day, self.book.count)
        return "%s %s %s %s" % (name, made, self.sum("store"), self.sum())

    def call(self, name, *words):
        *limits, room, message = words
        calendar, tables, balances = self.lent()
        buffer, given = bytearray(b"\xaa" * int(room)), self.book
        pieces = self.pieces if name.startswith("transfer") else {}
        done = getattr(claim_tracker, name)(calendar, tables, *map(words_of, limits), given, balances, bytes_of(message), buffer, **pieces)
        self.book = given if name.endswith("_in") else done.book
        return "%s %d claims %d %s" % (name, done.number, done.claims, self.left(buffer, claim_tracker.claim_room(done.claims)))

    def serve(self, ended, room, data):
        calendar, tables, balances = self.lent()
        buffer = bytearray(b"\xaa" * int(room))
        served = claim_tracker.serve(calendar, tables, self.book, balances, bytes_of(data), ended != "0", buffer)
        self.book = served.book
        return "serve %d consumed %d written %d over %d full %d %s" % (
            served.number, served.consumed, served.written, served.over, served.full, self.left(buffer, served.written))

    def read(self, name, message):
        found = getattr(claim_tracker, name)(message)
        if name == "read_close":
            return "%s %d" % (name, found)
        words = [name, "%d" % found.number] + ["%d" % value for value in found[1]]
        return " ".join(words + [hexed(line) for line in found[2:]])

    def write(self, name, words):
        buffer = bytearray(b"\xaa" * int(words[0]))
        given = []
        if name == "write_transfer":
            given = [claim_tracker.Transfer(*map(int, words[1:7])), bytes_of(words[7]), bytes_of(words[8])]
        elif name == "write_claim":
            given = [claim_tracker.Claim(*map(int, words[1:]))]
        elif name == "write_answer":
            given = [claim_tracker.Answer(int(words[1]))]
        return "%s %d %s" % (name, getattr(claim_tracker, name)(buffer, *given), hexed(buffer))


def answers(lines):
    """What a list of calls prints."""
    caller = Caller()
    return "".join(made + "\n" for made in map(caller.line, lines) if made is not None)
