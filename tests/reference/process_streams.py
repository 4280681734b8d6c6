"""Stored streams for the tests of claimrun as a process (tests/claimrun), by the reference.

    python3 process_streams.py REFERENCE_FOLDER FOLDER

writes FOLDER/NAME.stream for each stream: the bytes of book.dat, the input, all that claimrun writes, and the places where the input is
cut into pieces (four bytes each), each of the four parts behind its length of four bytes. tests/claimrun/data holds the files, packed by
gzip -9n. It fails where a claim type in force is missing, an accepted transfer of a code, a row that card 2 drops, a paid row claimed
behind one that waits, or something of the days before the memo of 2023 and of those from it on (MEMO).
"""
import os
import random
import struct
import sys

import step_files

ref, mk, cards, claimrun = step_files.reference_modules(sys.argv[1], "reference", "makebook", "cards", "claimrun")
rules = cards.Rules(step_files.CARDS)
ACCOUNTS, ROWS = 16, 16
PAIRS = [(lender, borrower) for lender in range(ACCOUNTS) for borrower in range(ACCOUNTS) if lender != borrower]
STARTS = (1, 7)                 # the tracking codes that start a loan and a repo
TRANSFER_SIZE, CLOSE_SIZE = 141, 4
INPUT_BUFFER = 65536
OUTPUT_BUFFER = 262144
RECORD_ROOM = 65542             # the output that must be free for a record
MOST_CLAIMS = 65536 // ref.CLAIM_SIZE
CALENDAR = mk.weekdays()
OPEN_DAYS = ref.open_days(CALENDAR)
FIRST_DAY = 20240103            # where the streams with loans open
OLD_DAY = 20221201              # where the stream opens that goes over the memo of 2023
# What streams show of the days before the memo and of those from it on: memo_facts in step_files.
MEMO = {("before the memo", name) for name in (
    "fail claim", "row before X", "types 1 and 2", "15 with an increase", "15 with a decrease", "empty tag with code 0",
    "repo claimed at a close")} | {("from the memo on", name) for name in ("fail claim", "empty tag")}
FAIL_CLAIMS = 6                 # the most claims of a failed transfer of type 1 or 2 with monthly rows
shown = set()                   # what the streams show


def places(pieces) -> list:
    """Where the pieces of an input end, the last one apart."""
    ends = [0]
    for piece in pieces:
        ends.append(ends[-1] + len(piece))
    return ends[1:-1]


def store(name, book, data, cuts, tallied=True):
    """Writes a stream, with what the reference's direct calls answer to it, and its tally too unless the stream is long."""
    direct = step_files.Direct(ref, cards)
    expected = claimrun.run_bytes(book, data, direct)
    if tallied:
        both = cards.Both(step_files.CARDS)
        assert claimrun.run_bytes(book, data, both) == expected, name
        both.check_owed()
    shown.update(step_files.record_facts(expected) | direct.facts)
    parts = (book, data, expected, struct.pack("<%dI" % len(cuts), *cuts))
    with open(os.path.join(sys.argv[2], name + ".stream"), "wb") as file:
        file.write(b"".join(struct.pack("<I", len(part)) + part for part in parts))
    print("%s: %d bytes in, %d pieces, %d bytes out" % (name, len(data), len(cuts) + 1, len(expected)))


def days_from(first: int) -> list:
    """The open days from this one on."""
    return OPEN_DAYS[OPEN_DAYS.index(first):]


def loans(security: int, pairs) -> bytes:
    """Starts of loans and repos by turns, of another par for each pair."""
    return b"".join(mk.transfer(lender, borrower, security, 1_000 * (lender + 1) + borrower, STARTS[i % 2])
                    for i, (lender, borrower) in enumerate(pairs))


def full_output():
    """1,680 loans and repos, then 16 closes in one piece; each crosses a Record Date of every security lent."""
    lent = range(7)
    days = days_from(FIRST_DAY)

    def row(s, r):
        return ref.Row(days[r + 1], days[r + 1], days[r + 30], 1_000_000 * (r + 1), 500_000 * s, int(r == 15 and s == 6), (s == 5) << r)

    tables = mk.tables_of({s: mk.security(s % 4 + 1, 1, [row(s, r) for r in range(ROWS)]) for s in lent})
    pieces = [b"".join(loans(s, PAIRS) for s in lent), mk.close() * ROWS]
    store("full-output", mk.book_bytes(CALENDAR, tables, days[0]), b"".join(pieces), places(pieces))


def rows_behind(days, closes) -> list:
    """A row for each of these closes, which crosses its Record Date; the Beneficiary Dates lie before the first day."""
    first = OPEN_DAYS.index(days[0])
    return [ref.Row(days[close + 1], OPEN_DAYS[first - 20 * (ROWS - r)], days[close + 40], 1_000_000 * (r + 1), 7_000_000, 0, 0)
            for r, close in enumerate(closes)]


def fail(dice, rows, claims: int) -> bytes:
    """A failed transfer that gives this many claims, up to six."""
    sender, receiver = dice.choice(PAIRS)
    return mk.transfer(sender, receiver, dice.randrange(8), 1_000 * dice.randrange(1, 1001), contract=rows[-1 - claims].beneficiary)


def fails_of_size(dice, rows, size: int) -> bytes:
    """Failed transfers whose claims and answers have this many bytes together."""
    count = next(n for n in range(size) if (size - 6 * n) % ref.CLAIM_SIZE == 0 and size <= n * (FAIL_CLAIMS * ref.CLAIM_SIZE + 6))
    claims = (size - 6 * count) // ref.CLAIM_SIZE
    return b"".join(fail(dice, rows, min(FAIL_CLAIMS, max(0, claims - FAIL_CLAIMS * i))) for i in range(count))


def fill_points(name, offsets):
    """A piece for each offset: its records fill the output to this many bytes behind the last place where a record is worked, when a close
    of 1,872 claims comes next. All closes of a piece but its last cross a Record Date. The securities are of types 1 and 2: card 2 drops
    claims of the others, whose Payment Dates lie ahead."""
    dice, days = random.Random(name), days_from(FIRST_DAY)
    rows = rows_behind(days, [close for close in range(4 * len(offsets)) if close % 4 < 3])
    tables = mk.tables_of({s: mk.security(s % 2 + 1, 1, rows) for s in range(8)})
    pieces = [b"".join(loans(s, PAIRS) for s in range(7)) + loans(7, PAIRS[:MOST_CLAIMS - 7 * len(PAIRS)])]
    for offset in offsets:
        size = OUTPUT_BUFFER - RECORD_ROOM + offset - 2 * (ref.CLAIM_SIZE * MOST_CLAIMS + 6)
        pieces.append(mk.close() * 2 + fails_of_size(dice, rows, size) + mk.close() + fail(dice, rows, FAIL_CLAIMS) + mk.close())
        assert len(pieces[-1]) <= INPUT_BUFFER
    store(name, mk.book_bytes(CALENDAR, tables, days[0]), b"".join(pieces), places(pieces), tallied=False)


def some_transfer(dice, day: int, securities: int, days: int = 60) -> bytes:
    """A failed transfer with a Contract Date up to this many open days ago, a loan or a repo or its return, or another transfer; some are
    refused."""
    sender, receiver = dice.choice(PAIRS[:40])
    security, par = dice.randrange(securities), dice.choice((1, 500, 40_000, dice.randrange(1, 100_000_001)))
    style = dice.randrange(8)
    if style < 3:
        at = OPEN_DAYS.index(day) - dice.randrange(-1, days)
        return mk.transfer(sender, receiver, security, par, contract=OPEN_DAYS[at], klass=int(style == 0))
    if style == 3:
        return mk.transfer(sender, receiver, security, par)
    return mk.transfer(sender, receiver, security, par, code=dice.choice(STARTS) + dice.choice((0, 0, 3, 4, 1, 2, 5)))


def monthly_tables(dice, securities: int, year: int, month: int) -> list:
    """Securities of all types with a row for each month from this one on: its Beneficiary Date is up to 12 days into the month, and its
    Payment Date two weeks into the same month or one of the next three."""
    months = [10000 * (year + m // 12) + 100 * (m % 12 + 1) + 1 for m in range(month - 1, month + 17)]

    def rows():
        return [ref.Row(m + dice.randrange(3), m + dice.randrange(12), months[i + dice.randrange(4)] + 14, dice.randrange(10_000_000),
                        dice.choice((0, dice.randrange(10 ** 9))), int(dice.random() < 0.1), dice.choice((0, 1 << dice.randrange(16))))
                for i, m in enumerate(months[:15])]

    return mk.tables_of({s: mk.security(s % 4 + 1, s // 2 % 4 + 1, rows()) for s in range(securities)})


def sizes_for(dice, total: int) -> list:
    """The sizes of records that have this many bytes together, in any order."""
    closes = next(n for n in range(TRANSFER_SIZE) if (total - CLOSE_SIZE * n) % TRANSFER_SIZE == 0)
    sizes = [CLOSE_SIZE] * closes + [TRANSFER_SIZE] * ((total - CLOSE_SIZE * closes) // TRANSFER_SIZE)
    dice.shuffle(sizes)
    return sizes


def buffer_ends():
    """A stream that cuts a record at another place at the end of each buffer, where each read fills the buffer."""
    dice, days = random.Random("buffer-ends"), days_from(FIRST_DAY)
    wanted = [(TRANSFER_SIZE, left) for left in (0, 1, 2, 3, 4, 5, 139, 140)] + [(CLOSE_SIZE, left) for left in (1, 2, 3)]
    records, day, first = [], 0, CLOSE_SIZE
    for cut, left in wanted + [(TRANSFER_SIZE, 0)]:
        for size in [first] + sizes_for(dice, INPUT_BUFFER - left - first):
            records.append(mk.close() if size == CLOSE_SIZE else some_transfer(dice, days[day], 8))
            day += size == CLOSE_SIZE
        first = cut
    book = mk.book_bytes(CALENDAR, monthly_tables(dice, 8, 2023, 10), days[0])
    store("buffer-ends", book, b"".join(records), [], tallied=False)


def many_reads():
    """Loans, repos, failed transfers, empty tags and closes, from a day before the memo on and over it, in more than 1,000 pieces, cut
    anywhere and often behind the first bytes of a record."""
    dice = random.Random("many-reads")
    days = days_from(OLD_DAY)
    data, cuts, day = b"", set(), 0
    for _ in range(640):
        start = len(data)
        if dice.random() < 0.2:
            data += mk.close()
            day += 1
        else:
            data += some_transfer(dice, days[day], 4, 200) if dice.random() < 0.9 else mk.transfer(
                *dice.choice(PAIRS), dice.randrange(4), 1_000, contract=b"")
        size = len(data) - start
        cuts |= {start + cut for cut in (dice.choice((1, 2, 3)), dice.randrange(size), size) if dice.random() < 0.75}
    book = mk.book_bytes(CALENDAR, monthly_tables(dice, 4, 2022, 4), days[0])
    store("many-reads", book, data, sorted(cuts - {0, len(data)}))


def closed_opening_day():
    """An opening day that is closed, where 20000101 is open and would serve the same input."""
    calendar = list(CALENDAR)
    calendar[0] |= 1
    tables = mk.tables_of({0: mk.security(3, 1, [ref.Row(20000103, 20000103, 20000110, 5_000_000, 0, 0, 0)])})
    data = mk.transfer(1, 2, 0, 200_000, STARTS[0]) + mk.close() * 2 + mk.transfer(1, 2, 0, 200_000, contract=20000101)
    other = claimrun.run_bytes(mk.book_bytes(calendar, tables, 20000101), data, cards.Both(step_files.CARDS))
    claims = 1 if rules.old(20000101) else 2        # the loan gives none on a day before there is lending
    assert len(other) == 4 * 6 + claims * ref.CLAIM_SIZE
    store("closed-opening-day", mk.book_bytes(calendar, tables, 20230401), data, [])


full_output()
fill_points("fill-points-below", range(-6, -1))
fill_points("fill-points-at", range(-1, 2))
fill_points("fill-points-above", range(2, 7))
buffer_ends()
many_reads()
closed_opening_day()
wanted = {("type", n) for n in step_files.in_force(step_files.CLAIM_TYPES)} | {("waiting", "dropped"), ("waiting", "paid kept behind")} | {
    ("code", n) for n in range(rules.last_code + 1)} | MEMO
missing = sorted(wanted - shown - {("type", fact[1]) for fact in shown if fact[0] == "claim"})
sys.exit("missing: %s" % missing if missing else 0)
