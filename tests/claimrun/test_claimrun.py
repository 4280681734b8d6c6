"""Tries claimrun as a process: document 01's hex example, days before the memo of 2023, refusals, wrong books, memory."""
import os
import random
import resource
import signal
import struct
import subprocess
import unittest

import common
from common import BOOK, EXPECTED, PROGRAM, SECONDS, TRANSFER, answer, state, wait_until


class Example(common.Claimrun):
    def output(self, data):
        run = subprocess.run([PROGRAM], cwd=self.folder, input=data, stdout=subprocess.PIPE, timeout=SECONDS)
        self.assertEqual(run.returncode, 0)
        return run.stdout

    def begin(self):
        """claimrun with pipes."""
        return subprocess.Popen([PROGRAM], cwd=self.folder, stdin=subprocess.PIPE, stdout=subprocess.PIPE, bufsize=0)

    # ---- the stream

    def test_hex_example(self):
        self.assertEqual(self.output(TRANSFER), EXPECTED)

    def test_no_input(self):
        self.assertEqual(self.output(b""), b"")

    def test_answers_without_waiting_for_more(self):
        process = self.begin()
        for _ in range(3):
            process.stdin.write(TRANSFER)
            first = process.stdout.read(41)
            self.assertEqual(first[:10] + first[14:], EXPECTED[:10] + EXPECTED[14:])
        process.stdin.close()
        self.assertEqual(process.stdout.read(), b"")
        process.stdout.close()
        self.assertEqual(process.wait(timeout=SECONDS), 0)

    def test_goes_on_after_a_stop_and_a_continue(self):
        with common.Run(self.folder) as run:
            run.send(TRANSFER[:50])
            for sent, seen in ((signal.SIGSTOP, "T"), (signal.SIGCONT, "S")):
                run.process.send_signal(sent)
                wait_until(lambda: state(run.process) in (seen, ""))
            run.send(TRANSFER[50:])
            self.assertEqual(run.end(), (EXPECTED, 0))

    # ---- days before the memo

    def transfer(self, code, line):
        """A transfer of par 100,000 from account 1 to account 2."""
        return TRANSFER[:8] + struct.pack("<BI64s64s", code, 100_000, line.ljust(64).encode(), b" " * 64)

    def fails(self, rows, transfer, release):
        """The claims of a failed transfer on these rows, which are paid."""
        return b"".join(struct.pack("<HHBBBBBBIQQIB", 33, 3, 1, 0, 1, 2, 0, row, transfer, 50_000, 0, release, 2) for row in rows)

    def test_over_the_first_day_of_the_memo(self):
        """The same records on 27 January 2023 and, behind a close, on 30 January. The coupons are those of the first of each month, half a
        cent on the dollar."""
        months = [20220700 + 100 * month for month in range(6)] + [20230100, 20230200]
        rows = [struct.pack("<7I", month + 1, month + 1, month + 25, 5_000_000, 0, 0, 0) for month in months]
        start = 1920 + 4 * 2
        self.write_book(BOOK[:start] + b"".join(rows) + BOOK[start + 28 * len(rows):-4] + struct.pack("<I", 20230127))
        records = self.transfer(0, "{98A:CNTR/20220615}") + self.transfer(0, "{98A:CNTR/}") + self.transfer(1, "") + self.transfer(7, "")
        before = self.fails(range(1, 7), 1, 20230130) + answer(0) + answer(0) + answer(15) + answer(0)
        behind = self.fails(range(7), 4, 20230131) + answer(0) + answer(135) + answer(0) + answer(0)
        self.assertEqual(self.output(records + bytes([2, 0, 2, 0]) + records), before + answer(0) + behind)

    # ---- refusals

    def test_end_within_a_record(self):
        for n in (1, 3, 4, 140):
            self.assertEqual(self.output(TRANSFER + TRANSFER[:n]), EXPECTED + answer(5))

    def test_wrong_header_is_answered_at_once(self):
        process = self.begin()
        process.stdin.write(bytes([139, 0, 2, 0]))
        self.assertEqual(process.stdout.read(6), answer(5))
        process.stdin.close()
        process.stdout.close()
        self.assertEqual(process.wait(timeout=SECONDS), 0)

    def test_random_bytes(self):
        dice = random.Random(2)
        for size in (4, 100, 70000):
            data = bytes([7, 7, 7, 7]) + dice.randbytes(size)
            process = self.begin()
            try:
                output = process.communicate(data, timeout=SECONDS)[0]
            except BrokenPipeError:
                output = process.stdout.read()
            self.assertEqual(output, answer(5))

    def test_refused_calls_go_on(self):
        other = bytearray(TRANSFER)
        other[4] = 16
        self.assertEqual(self.output(bytes(other) + TRANSFER), answer(6) + EXPECTED)

    # ---- book.dat

    def test_books_of_another_size(self):
        for data in (b"", BOOK[:-1], BOOK + b"\0", BOOK * 2):
            with open(self.path("book.dat"), "wb") as file:
                file.write(data)
            self.assertEqual(self.output(TRANSFER), answer(1))

    def test_missing_book(self):
        self.write_book(b"")
        self.assertEqual(self.output(TRANSFER), answer(1))

    def test_book_is_a_folder(self):
        self.write_book(b"")
        os.mkdir(self.path("book.dat"))
        self.assertEqual(self.output(TRANSFER), answer(1))

    def test_refused_books(self):
        calendar = bytearray(BOOK)
        calendar[3] = 128
        tables = bytearray(BOOK)
        tables[1920] = 5
        for data, number in ((calendar, 2), (tables, 3), (BOOK[:-4] + bytes(4), 4)):
            self.write_book(bytes(data))
            self.assertEqual(self.output(TRANSFER), answer(number))

    def test_closed_opening_day(self):
        """The first date is open and would serve the input, and is not taken for the opening day."""
        stream = common.stored("closed-opening-day")
        self.assertEqual(stream.expected, answer(4))
        self.run_file(stream)

    # ---- memory

    def test_memory_does_not_grow(self):
        with open(self.path("records"), "wb") as file:
            for _ in range(200):
                file.write(TRANSFER * 1000)

        def limit():
            resource.setrlimit(resource.RLIMIT_AS, (16 * 2 ** 20, 16 * 2 ** 20))

        with open(self.path("records"), "rb") as file:
            process = subprocess.Popen([PROGRAM], cwd=self.folder, stdin=file, stdout=subprocess.PIPE, preexec_fn=limit)
            size = 0
            while True:
                block = process.stdout.read(2 ** 16)
                if not block:
                    break
                size += len(block)
            process.stdout.close()
            self.assertEqual(process.wait(timeout=SECONDS), 0)
        self.assertEqual(size, 200 * 1000 * len(EXPECTED))


if __name__ == "__main__":
    unittest.main()
