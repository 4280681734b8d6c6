"""Document 01's cases that no theorem states, its mistakes to rule out, the fail, interim, repo and lending examples of source document 001
(Clearing Memo 278), Attachment II, the fail examples of source document 004 (Clearing Memo 219), Attachment 3, and the edges of the rules
of interim claims, of pools that pay late, of repos beside loans, of date limits, of minimum pieces, of days before the memo of 2023, of
saved books that are carried over and of marks, by the reference.

    python3 case_runs.py REFERENCE_FOLDER STEPS_FILE

writes the calls to STEPS_FILE (crates/case_runs/data/case_runs.in) and prints what the program case_runs has to write for them
(crates/case_runs/stdout). Years and factors of the memo's fail and lending examples are those of the reference's cases.py, and the repo
examples have those of lending; the interim examples are in 2026, where both Settlement Dates, 7 and 17 December, are open days. Memo 219's
examples are in 2002 or 2004, where their Settlement Dates and the days of their claims are open days. Each run is made by the reference's
tally and its direct calls side by side, but for saved books, which only the direct calls can take. A history is carried over with its
tally: its calls before the move are made by the reference with repo left out, and those behind it are compared with this form too, up to the
first with a repo code. A mark that is set in a run has the tally of its history, and so has a return to it where no step has written its
words; other returns have the direct calls alone. The store is kept from run to run.

Under a call stand its claims and the balances that are not zero: 'lent' for a loan and 'repo' for a repo, each with security, lender,
borrower and par, loans first; under a refused carry over the words that it changed, of which there are none. Under a call that sets a mark
or returns to one stands a checksum of the store too, and of each mark that is set its number, day and count.
"""
import copy
import datetime
import sys

import step_files

ref, mk, cards, cases = step_files.reference_modules(sys.argv[1], "reference", "makebook", "cards", "cases")
rules = cards.Rules(step_files.CARDS)
steps = step_files.Steps(ref, rules)
ROOM = 4096
TRACKINGS = (("loan", 1), ("repo", 7))      # each with its first code
W, X, Y, Z = 3, 0, 1, 2      # the memos' banks
CALENDAR = mk.weekdays()
EVERY_DAY = mk.calendar_of(lambda date: True)
EMPTY_TAG = mk.tag(b"")
LAST_DAY, MEMO_DAY = 20230127, 20230130     # the last open day before the memo of 2023, and the memo's
# Days, each with the same day six months earlier, or the last day of that month where it is shorter.
HALF_YEARS = {20220831: 20220228, 20200831: 20200229, 20220630: 20211230, 20221231: 20220630, 20000131: 19990731, 20000815: 20000215,
              20000831: 20000229, 20210829: 20210228, 20200828: 20200228, 20210331: 20200930, 20220531: 20211130, 20221031: 20220430,
              20220101: 20210701, 20000701: 20000101, 20000702: 20000102, 20230129: 20220729}


def lending_history(day, calls):
    """The history of these calls from this day on, by the rules in force with repo left out."""
    history = cards.Both(step_files.CARDS, repo=False)
    assert history.open(steps.calendar, steps.tables, day) == 0
    for fields, more in calls:
        if fields is None:
            history.close(steps.calendar, steps.tables, mk.close(), step_files.pattern(ROOM))
        else:
            history.transfer(steps.calendar, steps.tables, mk.transfer(*fields, **more), step_files.pattern(ROOM))
    history.check_owed()
    return history


class Run:
    """A run: calendar and tables, an opening, then calls on the book, balances and store that the last one left."""

    def __init__(self, name, day, tables, calendar=CALENDAR):
        self.name = name
        self.trial = self.both = cards.Both(step_files.CARDS)   # the history that has the marks; the one that the book is of
        self.marked = {}                                        # of each mark, what the form with repo left out has come to
        steps.set_tables(calendar, tables)
        self.open("opening", day)

    def open(self, name, day):
        self.lending = None
        self.both.open(steps.calendar, steps.tables, day)
        self.show(name, steps.open("%s-%s" % (self.name, name), day))

    def show(self, name, result):
        print("%s-%s" % (self.name, name), result.number, *result.book, result.claims)
        for claim in ref.read_claims(result.buffer, result.claims):
            print(" claim", *claim)
        for w, par in enumerate(result.balances):
            if par:
                print(" repo" if w >= cards.REPO_AT else " lent", w // 256 % 16, w // 16 % 16, w % 16, par)

    def save(self, day, words, count=0):
        """A saved book with these words from here on."""
        self.both = self.lending = None
        steps.set_book(day, count, [words.get(w, 0) for w in range(rules.words)])

    def carry_over(self, name, day, words, count=0, saved=step_files.REPO_AT, **lengths):
        """A book saved with these words carried over, and the calls from here on made on it."""
        self.both = self.lending = None
        self.show(name, steps.carry_over("%s-%s" % (self.name, name), day, count, [words.get(w, 0) for w in range(saved)], **lengths))

    def move(self, name, day, calls):
        """A history with repo left out, of calls from this day on, carried over. It goes on in both forms."""
        self.lending, self.both = (lending_history(day, calls) for _ in range(2))
        self.trial = self.both
        result = steps.carry_over("%s-%s" % (self.name, name), *self.both.book, self.both.balances)
        assert self.both.carry_over(steps.calendar) == result.number == 0, name
        assert (self.both.book, self.both.balances) == (result.book, result.balances), name
        self.show(name, result)

    def made(self, name, result, tallied, *arguments):
        """Shows what a call gave, which the tally's form of it has to give on the same arguments, and the form with repo left out."""
        if self.both:
            assert result == tallied(self.both, steps.calendar, steps.tables, *arguments), name
            self.both.check_owed()
        if self.lending:
            alone = tallied(self.lending, steps.calendar, steps.tables, *arguments)
            assert result == alone._replace(balances=alone.balances + [0] * step_files.REPO_AT), name
        self.show(name, result)

    def transfer(self, name, *fields, room=ROOM, limits=None, pieces=None, **more):
        """A transfer, in the form with limits where some are given, with ones as pieces where no others are."""
        message = mk.transfer(*fields, **more)
        if 6 < ref.read_record(ref.TRANSFER, message)[1].code <= rules.last_code:
            self.lending = None
        result = steps.transfer("%s-%s" % (self.name, name), message, room, limits, pieces)
        self.made(name, result, cards.Both.transfer, message, step_files.pattern(room), limits, pieces)

    def close(self, name, room=ROOM):
        result = steps.close("%s-%s" % (self.name, name), mk.close(), room)
        self.made(name, result, cards.Both.close, mk.close(), step_files.pattern(room))

    def write_store(self, words):
        """Words of the store written by a step: the marks that have them are no longer those of the history."""
        steps.set_store(words)
        for mark in {1 + place // step_files.MARK_WORDS for place in words}:
            self.trial.tally.marks.pop(mark, None)

    def show_store(self):
        print(" store", step_files.checksum(steps.store))
        for mark in range(1, 5):
            flag, day, count = steps.store[step_files.MARK_WORDS * (mark - 1):][:3]
            if flag == 1:
                print(" mark", mark, day, count)

    def set_mark(self, name, mark, **lengths):
        """A mark set. A history gets it with its tally."""
        found = steps.store[:step_files.STORE_WORDS]
        result = steps.set_mark("%s-%s" % (self.name, name), mark, **lengths)
        if self.both and not lengths:
            self.both.store = found
            assert self.both.set_mark(steps.calendar, mark) == result.number, name
            assert self.both.store == steps.store[:step_files.STORE_WORDS], name
            self.marked[mark] = copy.deepcopy(self.lending)
        elif result.number == 0:
            self.trial.tally.marks.pop(mark, None)
        self.show(name, result)
        self.show_store()

    def go_back(self, name, mark, **lengths):
        """A return to a mark. Where the history has the mark it goes on from there."""
        trial, found = self.trial, (steps.book, steps.balances, steps.store[:step_files.STORE_WORDS])
        result = steps.go_back("%s-%s" % (self.name, name), mark, **lengths)
        if result.number == 0 and mark in trial.tally.marks:
            self.both, self.lending = trial, copy.deepcopy(self.marked[mark])
        elif result.number == 0:
            self.both = self.lending = None
        if self.both and not lengths:
            trial.book, trial.balances, trial.store = found
            assert trial.go_back(steps.calendar, mark) == result.number, name
            assert (trial.book, trial.balances) == (result.book, result.balances), name
            trial.check_owed()
        self.show(name, result)
        self.show_store()


def document_cases():
    """Tags that end at once, and tags across both lines: cut within the opener there is none."""
    run = Run("tag", 20230404, mk.cases_tables())
    run.transfer("with-its-end-straight-after", 1, 2, 0, 200_000, line1=b"{98A:CNTR/}")
    run.transfer("with-its-end-straight-after-in-line-2", 1, 2, 0, 200_000, line2=b"{98A:CNTR/}")
    tag = mk.tag(20230315)
    for cut in range(1, len(tag)):
        name = "cut-within-its-opener-%d" if cut < len(ref.OPENER) else "cut-behind-its-opener-%d"
        run.transfer(name % cut, 1, 2, 0, 200_000, line1=b"x" * (64 - cut) + tag[:cut], line2=tag[cut:])
    run.transfer("at-the-end-of-line-1", 1, 2, 0, 200_000, line1=b"x" * (64 - len(tag)) + tag)
    run.transfer("at-the-end-of-line-2", 1, 2, 0, 200_000, line2=b"x" * (64 - len(tag)) + tag)


def mistakes():
    """The mistakes to rule out."""
    run = Run("edits", 20230404, mk.cases_tables())
    run.transfer("contract-date-is-a-beneficiary-date", 1, 2, 0, 200_000, contract=20230401)
    for code in range(1, rules.last_code + 1):
        run.transfer("of-code-%d" % code, 1, 2, 0, 200_000, code, contract=20230405)
    for name, start in TRACKINGS:
        run.transfer(name + "-with-a-tag", 1, 2, 0, 200_000, start, contract=20230315)
    rows = [ref.Row(20240001 + 100 * m, 20240001 + 100 * m, 20240015 + 100 * m, 1_000_000 * m, 0, 0, 0)
            for m in range(1, 13)]
    for kind, frequency in ((1, 1), (1, 2), (2, 3), (2, 4), (3, 2), (4, 1)):
        run = Run("rows-of-type-%d-frequency-%d" % (kind, frequency), 20241104,
                  mk.tables_of({5: mk.security(kind, frequency, rows)}))
        run.transfer("most-recent", 1, 2, 5, 100, contract=20231231)
        run.transfer("after-the-contract-date", 1, 2, 5, 100, contract=20240930)
    for name, start in TRACKINGS:
        run = Run(name + "s-each-way", 20230331, mk.cases_tables())
        run.transfer("lent", 1, 2, 0, 700, start)
        run.transfer("borrowed", 2, 1, 0, 300, start)
        run.close("close-over-a-saturday")


def memo_fails():
    """Fail tracking, examples 1 to 7."""
    mbs = mk.tables_of({0: mk.security(3, 1, cases.monthly(2023, (2, 3, 4, 5)))})
    mbs_2024 = mk.tables_of({0: mk.security(3, 1, cases.monthly(2024, (2, 3, 4, 5)))})
    treasury = mk.tables_of({0: mk.security(1, 3, cases.same_day((20211015, 20220415, 20221015, 20230415, 20231015)))})
    debt = mk.tables_of({0: mk.security(2, 2, cases.same_day((20221010, 20230110, 20230410, 20230710, 20231010)))})
    for name, tables, settlement, contract, sender, receiver, par in (
            ("1", mbs, 20230320, 20230315, W, X, 100_000),
            ("2", mbs_2024, 20240404, 20240315, Y, Z, 200_000),
            ("2-in-2023", mbs, 20230404, 20230315, Y, Z, 200_000),
            ("3", mbs, 20230420, 20230315, X, Z, 300_000),
            ("4", mbs, 20230509, 20230315, X, Z, 400_000),
            ("5", treasury, 20230320, 20230315, W, X, 100_000),
            ("6", treasury, 20230420, 20230315, Y, Z, 200_000),
            ("7", debt, 20230815, 20230305, Y, X, 300_000)):
        run = Run("fail-example-" + name, settlement, tables)
        run.transfer("transfer", sender, receiver, 0, par, contract=contract)


def december(year):
    """The row of the memo's interim examples."""
    first = 10000 * year + 1201
    return ref.Row(first, first + 14, first + 14, 5_000_000, 0, 0, 0)


def memo_interim():
    """Interim accounting tracking, examples 1 and 2."""
    for name, settlement, par in (("1", 20261217, 200_000), ("2", 20261207, 75_000)):
        run = Run("interim-example-" + name, settlement, mk.tables_of({0: mk.security(3, 1, [december(2026)])}))
        run.transfer("transfer", X, Y, 0, par)


def interim():
    """Types, outcomes, classes and codes between a Record Date and a Beneficiary Date, several rows at once, and the days around them."""
    row = december(2023)
    final, masked, nothing, several, beneficiary_first = range(5, 10)
    tables = mk.tables_of({kind: mk.security(kind, 1, [row]) for kind in (1, 2, 3, 4)} | {s: mk.security(3, 1, rows) for s, rows in (
        (final, [row._replace(final=1)]),
        (masked, [row._replace(mask=1 << X)]),
        (nothing, [row._replace(interest_factor=0)]),
        (several, [row._replace(record=record, beneficiary=beneficiary, payment=payment) for record, beneficiary, payment in (
            (20231001, 20231001, 20231025), (20231101, 20231215, 20231220), (20231201, 20240115, 20240122))]),
        (beneficiary_first, [row._replace(record=20231215, beneficiary=20231201, payment=20231220)]))})
    run = Run("interim", 20231207, tables)
    for name, sender, receiver, security, more in (
            ("type-1", X, Y, 1, {}),
            ("type-2", X, Y, 2, {}),
            ("type-3", X, Y, 3, {}),
            ("type-4", X, Y, 4, {}),
            ("final", X, Y, final, {}),
            ("payer-masked", X, Y, masked, {}),
            ("payee-masked", Y, X, masked, {}),
            ("zero-amounts", X, Y, nothing, {}),
            ("several-rows", X, Y, several, {}),
            ("behind-a-fail", X, Y, several, {"contract": 20230915}),
            ("behind-a-fail-one-byte-short", X, Y, several, {"contract": 20230915, "room": 104}),
            ("behind-a-fail-exact-room", X, Y, several, {"contract": 20230915, "room": 105}),
            ("class-1", X, Y, 3, {"contract": 20231207, "klass": 1}),
            ("refused", X, Y, 3, {"contract": 20231206, "klass": 1}),
            ("code-1", X, Y, 3, {"code": 1})):
        run.transfer(name, sender, receiver, security, 100_000 if security == several else 75_000, **more)
    for day in (20231130, 20231201, 20231207, 20231214, 20231215, 20231218):
        run.open("opening-%d" % day, day)
        run.transfer("%d" % day, X, Y, 3, 75_000)
        run.transfer("%d-beneficiary-date-before-record-date" % day, X, Y, beneficiary_first, 75_000)


def rows_from(first, payments):
    """Rows with Record and Beneficiary Dates on the first of each month from this date on, and these Payment Dates."""
    return [ref.Row(date, date, payment, 5_000_000, 0, 0, 0) for date, payment in zip(range(first, first + 1200, 100), payments)]


def changed(rows, r, **words):
    """The rows with words of one of them changed."""
    return rows[:r] + [rows[r]._replace(**words)] + rows[r + 1:]


def late_pools():
    """Securities by name, each with its type and rows; on 20230705 some rows of each wait for their Payment Dates."""
    pool = rows_from(20230401, (20230525, 20230625, 20230725, 20230825))
    nine = rows_from(20230101, range(20240101, 20240902, 100))
    return {"type-%d" % kind: (kind, pool) for kind in (1, 2, 3, 4)} | {
        "paid-behind": (4, rows_from(20230401, (20230525, 20230725, 20230703, 20230825))),
        "paid-on-the-day": (3, rows_from(20230401, (20230525, 20230625, 20230705, 20230725))),
        "payer-masked": (4, changed(pool, 2, mask=1 << X)),
        "zero-amounts": (3, changed(pool, 2, interest_factor=0)),
        "final": (4, changed(pool, 2, final=1)),
        "interim-behind": (3, changed(pool, 3, beneficiary=20230715)),
        "interim-behind-a-dropped-row": (4, changed(changed(pool, 1, payment=20230720), 3, beneficiary=20230715)),
        "a-year-late": (3, nine),
        "first-of-seven-paid": (4, changed(nine, 2, payment=20230901))}


def long_delay():
    """Rows that wait for their Payment Dates: all pools on one day, rooms, Contract Dates and no tag, the days around a Payment Date, and
    more of them than a fail goes back."""
    pools = late_pools()
    run = Run("long-delay", 20230705, mk.tables_of({s: mk.security(kind, 1, rows) for s, (kind, rows) in enumerate(pools.values())}))

    def fail(pool, more="", contract=20230315, room=ROOM):
        run.transfer(pool + more, X, Y, list(pools).index(pool), 100_000, contract=contract, room=room)

    for pool in pools:
        fail(pool)
    for pool in ("type-3", "interim-behind-a-dropped-row"):
        fail(pool, "-one-byte-short", room=104)
        fail(pool, "-exact-room", room=105)
        fail(pool, "-no-tag", contract=None)
    for contract in (20230531, 20230601, 20230701):
        fail("type-3", "-contract-date-%d" % contract, contract=contract)
    for day in (20230630, 20230703, 20230724, 20230725, 20230825):
        run.open("opening-%d" % day, day)
        for pool in ("type-3", "paid-behind", "interim-behind-a-dropped-row"):
            fail(pool, "-%d" % day)
    run.open("opening-20230905", 20230905)
    for pool, room in (("a-year-late", 35), ("first-of-seven-paid", 70)):
        fail(pool, "-20230905-one-byte-short", contract=20221231, room=room - 1)
        fail(pool, "-20230905-exact-room", contract=20221231, room=room)
        fail(pool, "-20230905-contract-date-on-the-first-of-seven", contract=20230301)


def memo_balances(name, start, returned):
    """Repo or securities lending tracking, examples 1 to 3, each on what the last one left: its first code, and the par that example 3
    returns."""
    rows = cases.monthly(2024, (1, 2, 3))
    cusip_a, cusip_b = 0, 1
    run = Run(name, 20240129, mk.tables_of({s: mk.security(3, 1, rows) for s in (cusip_a, cusip_b)}))
    run.transfer("example-1-a", X, Y, cusip_a, 50_000, start)
    run.transfer("example-1-b", Z, X, cusip_b, 40_000, start)
    run.transfer("example-1-c", Y, X, cusip_a, 20_000, start + 1)
    run.close("example-1-close")
    run.transfer("example-2-a", X, Z, cusip_b, 50_000, start)
    run.transfer("example-2-b", Y, X, cusip_a, 15_000, start + 5)
    run.close("example-2-close")
    run.transfer("example-3-a", X, Z, cusip_b, returned, start + 2)
    run.close("example-3-close")
    run.transfer("on-the-record-date", X, Y, cusip_a, 1_000, start + 4)
    run.close("after-the-record-date")


def repos():
    """Repos beside loans of the same two accounts: codes, amounts, the order of claims, outcomes, rooms, and saved books at the limits."""
    row = mk.cases_row(4)
    ordered, final, masked, nothing = range(1, 5)
    tables = mk.tables_of({s: mk.security(kind, 1, rows) for s, kind, rows in (
        (0, 3, [row, mk.cases_row(5)]),
        (ordered, 3, [row, row._replace(record=20230402, beneficiary=20230402, interest_factor=10_000_000)]),
        (final, 2, [row._replace(final=1, mask=1 << 2)]),
        (masked, 1, [row._replace(mask=1 << 2)]),
        (nothing, 4, [row._replace(interest_factor=0, final=1)]))})
    run = Run("repos", 20230331, tables)
    for name, sender, receiver, par, code in (
            ("loan-start", 1, 2, 50_000, 1), ("start", 1, 2, 30_000, 7), ("close", 2, 1, 10_000, 9), ("decrease", 2, 1, 5_000, 12),
            ("decrease-above-it", 2, 1, 15_001, 12), ("code-13", 1, 2, 15_000, 13), ("loan-return-above-it", 2, 1, 50_001, 3),
            ("start-reversal", 2, 1, 15_000, 8), ("increase", 1, 2, 15_000, 11)):
        run.transfer(name, sender, receiver, 0, par, code)
    run.close("and-loan-one-byte-short", room=69)
    run.close("and-loan", room=70)
    for name, loans in (
            ("row-by-row", [(ordered, 1, 2, 100, 1), (ordered, 2, 1, 300, 1), (ordered, 1, 2, 200, 7)]),
            ("rounded-apart", [(0, 1, 2, 1, 1), (0, 1, 2, 1, 7)]),
            ("outcomes", [(s, 1, 2, 10_000, code) for s in (final, masked, nothing) for code in (1, 10)]),
            ("payee-masked", [(masked, 2, 1, 10_000, code) for code in (1, 10)])):
        run.open(name + "-opening", 20230331)
        for i, (security, lender, borrower, par, code) in enumerate(loans):
            run.transfer("%s-%d" % (name, i), lender, borrower, security, par, code)
        run.close(name)
    for name, words in (("with-itself", {4_096 + 85: 1}), ("past-the-limit", {8_190: 9_000_000_001})):
        run.save(20230331, words)
        run.transfer(name + "-transfer", 1, 2, 0, 1)
        run.close(name)
    for (name, start), (other, first), word in zip(TRACKINGS, reversed(TRACKINGS), (18, 4_114)):
        run.save(20230331, {word: 9_000_000_000})
        run.transfer(name + "-past-the-limit", 1, 2, 0, 1, start)
        run.transfer("%s-beside-a-%s-at-the-limit" % (other, name), 1, 2, 0, 1, first)


def limits_on_the_cases():
    """Limits on the tables of the worked cases: one history with another list for each call, lists that break a rule among them, rooms,
    loans and repos; then bad lists beside other causes."""
    tables = mk.cases_tables()
    run = Run("limits", 20230509, tables)

    def fail(name, **more):
        run.transfer(name, 1, 2, 0, 400_000, contract=20230315, **more)

    fail("none")
    for limits in (step_files.PUBLISHED, [16] * 5, [1, 6, 3, 2, 1], [1, 16, 16, 16, 16], [2, 3, 3, 3, 3], [1] * 5, *step_files.BROKEN):
        fail("-".join(map(str, limits)) or "empty", limits=limits)
    fail("one-date-one-byte-short", limits=[1, 6, 3, 2, 1], room=34)
    fail("one-date-exact-room", limits=[1, 6, 3, 2, 1], room=35)
    for name, start in TRACKINGS:
        run.transfer(name, 1, 2, 0, 5_000, start, limits=[1] * 5)
        run.transfer(name + "-with-a-bad-list", 1, 2, 0, 5_000, start, limits=step_files.BROKEN[-1])
    run.close("close")
    fail("after-the-close", limits=[1, 6, 3, 2, 1])
    fail("none-after-the-close")
    run.save(20230506, {})
    for name, limits in (("none", None), ("good-list", step_files.PUBLISHED), ("bad-list", step_files.BROKEN[0])):
        fail(name + "-on-a-closed-day", limits=limits)
    steps.set_tables(CALENDAR, [5] + tables[1:])
    fail("bad-list-and-bad-tables", limits=step_files.BROKEN[0])


def limits_by_security():
    """Nine rows of each type and frequency, pools that pay late and a row with an interim claim, in the form without limits, with more
    dates than the published ones and with fewer."""
    paid, late = rows_from(20230101, range(20230115, 20230916, 100)), rows_from(20230101, range(20240101, 20240902, 100))
    interim_behind = paid + [ref.Row(20230918, 20231001, 20231015, 5_000_000, 0, 0, 0)]
    securities = {"type-%d-frequency-%d" % (kind, frequency): (kind, frequency, paid) for kind, frequency in (
        (1, 1), (2, 1), (1, 2), (2, 2), (1, 3), (2, 3), (1, 4), (2, 4), (3, 1), (4, 4))} | {
        "late": (3, 1, late), "one-paid": (4, 2, changed(late, 2, payment=20230901)), "interim-behind": (3, 3, interim_behind)}
    run = Run("limits-by-security", 20230920, mk.tables_of({s: mk.security(*found) for s, found in enumerate(securities.values())}))
    for name, limits in (("none", None), ("more", [9, 8, 4, 3, 2]), ("fewer", [3, 5, 2, 1, 1])):
        for s, security in enumerate(securities):
            run.transfer("%s-%s" % (security, name), X, Y, s, 100_000, contract=20221230, limits=limits)


def pieces():
    """Minimum pieces on a history whose list changes from call to call: par on and off the piece with each code, the whole balance of each
    tracking and all that is near it, each security by its own piece, lists that break a rule, and other causes beside them."""
    rows = [mk.cases_row(4), mk.cases_row(5)]
    run = Run("pieces", 20230428, mk.tables_of({s: mk.security(3, 1, rows) for s in (0, 3)}))
    ones, thousand = step_files.ONES, [1_000] + step_files.ONES[1:]

    def sent(name, par, code=0, pieces=thousand, security=0, back=False, **more):
        run.transfer(name, *((2, 1) if back else (1, 2)), security, par, code, pieces=pieces, **more)

    sent("on", 200_000, contract=20230315)
    sent("off", 200_500, contract=20230315)
    sent("off-with-ones", 200_500, pieces=ones, contract=20230315)
    for code in range(1, rules.last_code + 1):
        sent("code-%d-off" % code, 1_500, code)
        sent("code-%d-off-back" % code, 1_500, code, back=True)
    for (name, start), (_, other) in zip(TRACKINGS, reversed(TRACKINGS)):
        sent(name + "-lent-off", 40_500, start, pieces=ones)
        sent(name + "-increase-of-the-whole-balance", 40_500, start)
        sent(name + "-of-the-whole-balance-without-a-code", 40_500, back=True)
        sent(name + "-return-the-other-way", 40_500, start + 2)
        sent(name + "-return-of-the-other-tracking", 40_500, other + 2, back=True)
        for par in (500, 40_499, 40_501, 41_000, 41_500):
            sent("%s-return-%d" % (name, par), par, start + 2, back=True)
        sent(name + "-return-40000", 40_000, start + 2, back=True)
        sent(name + "-increase-beside-500", 2_000, start)
        sent(name + "-return-of-the-rest", 2_500, start + 2, back=True)
        for step in (1, 2, 5):
            sent("%s-lent-off-%d" % (name, step), 40_500, start, pieces=ones)
            sent("%s-whole-balance-by-code-%d" % (name, start + step), 40_500, start + step, back=True)
        sent(name + "-held-over-the-close", 1_500, start, pieces=ones)
    by_security = [1_000] + ones[1:3] + [7] + ones[4:]
    for security, par in ((0, 7_000), (0, 7), (0, 1_000), (3, 7_000), (3, 7), (3, 1_000)):
        sent("security-%d-par-%d" % (security, par), par, pieces=by_security, security=security)
    for piece in (2, 3, 5, 1_000_000):
        sent("999999-in-pieces-of-%d" % piece, 999_999, pieces=[piece] * 16)
    sent("1000000-in-pieces-of-1000000", 1_000_000, pieces=[1_000_000] * 16)
    for i, broken in enumerate(step_files.BROKEN_PIECES):
        sent("broken-%d" % i, 200_000, pieces=broken)
    for name, start in TRACKINGS:
        sent(name + "-with-a-broken-list", 5_000, start, pieces=step_files.BROKEN_PIECES[0])
    pieces_beside_other_causes(run, sent, thousand)


def pieces_beside_other_causes(run, sent, thousand):
    """Limits and pieces together, then causes that come before 13 and 14 and behind them."""
    bad, published = step_files.BROKEN_PIECES[1], step_files.PUBLISHED
    sent("with-limits-on", 200_000, limits=published, contract=20230315)
    sent("with-limits-off", 200_500, limits=published, contract=20230315)
    sent("bad-limits", 200_500, limits=step_files.BROKEN[0])
    sent("bad-limits-and-bad-list", 200_000, limits=step_files.BROKEN[0], pieces=bad)
    sent("good-limits-and-bad-list", 200_000, limits=published, pieces=bad)
    sent("broken-number-of-another-security", 200_000, pieces=thousand[:3] + [0] + thousand[4:])
    sent("off-with-class-1", 200_500, klass=1, contract=20230315)
    sent("off-with-a-later-contract-date", 200_500, contract=20230501)
    sent("off-with-an-unused-security", 200_500, pieces=[1_000] * 16, security=1)
    sent("off-without-room", 200_500, contract=20230315, room=0)
    sent("on-without-room", 200_000, contract=20230315, room=0)
    run.close("close-over-a-record-date")
    run.save(20230404, {18: 8_999_999_900}, 4_294_967_295)
    sent("off-with-a-full-count", 200_500)
    run.save(20230404, {18: 8_999_999_900})
    sent("past-the-limit-off", 1_500, 1)
    sent("past-the-limit-on", 1_000, 1)
    run.save(20230401, {})
    sent("bad-list-on-a-closed-day", 200_000, pieces=bad)
    sent("off-on-a-closed-day", 200_500)
    steps.set_tables(CALENDAR, [5] + steps.tables[1:])
    sent("bad-list-and-bad-tables", 200_000, pieces=bad)


def memo_219_fails():
    """Memo 219's fail tracking, examples 1 to 5, each with its own security; the fifth is a repo, with a tag and without."""
    examples = (("1", 20020320, W, X, 100_000), ("2", 20020404, Y, Z, 200_000), ("3", 20040420, X, Z, 300_000),
                ("4", 20020509, Y, X, 400_000), ("5", 20040420, X, Z, 500_000))
    tables = mk.tables_of({s: mk.security(3, 1, cases.monthly(settlement // 10000, (4, 5) if name == "4" else (4,)))
                           for s, (name, settlement, *_) in enumerate(examples)})
    for cusip, (name, settlement, sender, receiver, par) in enumerate(examples):
        run = Run("memo-219-example-" + name, settlement, tables)
        code = 7 if name == "5" else 0
        run.transfer("transfer", sender, receiver, cusip, par, code, contract=settlement // 10000 * 10000 + 315)
    run.transfer("no-tag", sender, receiver, cusip, par, code)


def beside(date, days):
    """The date so many days after this one."""
    return mk.number(mk.as_date(date) + datetime.timedelta(days=days))


def about(date):
    """A date, the one before it and the one after it; the first dates where none of these is a date."""
    return [d for d in (beside(date, n) for n in (-1, 0, 1)) if d >= ref.FIRST_DATE] or [ref.FIRST_DATE + n for n in range(3)]


def half_years():
    """Rows about the same day six months earlier, paid on the day: on the day before it, on the day itself and on the day after it. Then
    the first three days, and the last day before the memo and the memo's own, with loans and empty tags."""
    tables = mk.tables_of({s: mk.security(3 + s % 2, 1, [ref.Row(date, date, day, 5_000_000, 0, 0, 0) for date in about(earlier)])
                           for s, (day, earlier) in enumerate(HALF_YEARS.items())})
    run = Run("half-year", 20000101, tables, EVERY_DAY)

    def days(name, security, first, count, with_others=False):
        run.open(name + "-opening", first)
        for n in range(count):
            day = "%s-%d" % (name, beside(first, n))
            run.transfer(day, X, Y, security, 100_000, contract=ref.FIRST_DATE)
            if with_others:
                run.transfer(day + "-loan", X, Y, security, 100_000, 1)
                run.transfer(day + "-empty-tag", X, Y, security, 100_000, contract=b"")
                run.transfer(day + "-contract-date-in-1999", X, Y, security, 100_000, contract=19991231)
            run.close(day + "-close")

    for security, day in enumerate(HALF_YEARS):
        days("of-%d" % day, security, beside(day, -1), 3)
    days("first-days", list(HALF_YEARS).index(20000131), 20000101, 3, with_others=True)
    days("memo", list(HALF_YEARS).index(20230129), 20230129, 2, with_others=True)


def memo_securities():
    """Securities by name, each with its type, frequency and rows, for the days about the memo's."""
    def row(date, payment):
        return ref.Row(date, date, payment, 5_000_000, 0, 0, 0)

    firsts = (20220701, 20220801, 20220901, 20221001, 20221101, 20221201, 20230101, 20230201)
    monthly, interim_row = [row(date, date + 24) for date in firsts], row(20230120, 20230225)._replace(beneficiary=20230215)
    return {"type-%d" % kind: (kind, 1, monthly) for kind in (1, 2, 3, 4)} | {
        "annual": (4, 4, monthly),
        "outcomes": (3, 1, changed(changed(changed(monthly, 4, mask=1 << 1), 5, interest_factor=0), 6, final=1)),
        "february": (3, 1, [row(20220228, 20220315), row(20220301, 20220315), row(20220801, 20220815)]),
        "eleven": (4, 1, [row(date + n, 20230615) for date in firsts[1:6] for n in (0, 14)] + [row(20230101, 20230615)]),
        "interim": (3, 1, [interim_row]),
        "interim-behind": (4, 1, monthly[:7] + [interim_row]),
        "on-the-day": (3, 1, [row(20230127, 20230215), row(20230130, 20230215)])}


SECURITIES = memo_securities()
MEMO_TABLES = mk.tables_of({s: mk.security(*found) for s, found in enumerate(SECURITIES.values())})


def word_of(security):
    """The word of the balances with what account 1 has lent account 2."""
    return ref.place(list(SECURITIES).index(security), 1, 2)


def memo_run(name, day):
    """A run on these securities, and a transfer in one of them, from account 1 to account 2 or back."""
    run = Run("memo-" + name, day, MEMO_TABLES)

    def sent(name, security="type-3", par=100_000, code=0, back=False, **more):
        run.transfer(name, *((2, 1) if back else (1, 2)), list(SECURITIES).index(security), par, code, **more)

    return run, sent


def fails_before_the_memo():
    """The end of February half a year later. Then on both sides of the memo: every security, Contract Dates, no tag, and rooms for rows
    that all wait."""
    for day, contracts in ((20220830, (20220101,)), (20220831, (20220101, 20220227, 20220228)), (20220901, (20220101,))):
        _, sent = memo_run("fails-%d" % day, day)
        for contract in contracts:
            sent("february-contract-date-%d" % contract, "february", contract=contract)
    for day, waiting in ((LAST_DAY, 11), (MEMO_DAY, 1), (20230201, 1)):
        _, sent = memo_run("fails-%d" % day, day)
        for security in SECURITIES:
            sent(security, security, contract=20220615)
        for contract in (20220731, 20220801, 20230101, day):
            sent("type-4-contract-date-%d" % contract, "type-4", contract=contract)
        sent("type-4-class-1", "type-4", contract=day, klass=1)
        sent("type-4-class-1-contract-date-before", "type-4", contract=20220615, klass=1)
        for security in ("type-3", "interim", "interim-behind"):
            sent(security + "-no-tag", security)
        sent("eleven-one-byte-short", "eleven", contract=20220615, room=35 * waiting - 1)
        sent("eleven-exact-room", "eleven", contract=20220615, room=35 * waiting)


def limits_before_the_memo():
    """Limits, which are judged on both sides of the memo and used on one."""
    for day in (LAST_DAY, MEMO_DAY):
        _, sent = memo_run("limits-%d" % day, day)
        for limits in (step_files.PUBLISHED, [1] * 5, [16] * 5):
            for security in ("type-1", "type-3", "eleven"):
                sent("%s-limit-%d" % (security, limits[0]), security, contract=20220615, limits=limits)
        for i, broken in enumerate(step_files.BROKEN):
            sent("broken-%d" % i, contract=20220615, limits=broken)
        for name, start in TRACKINGS:
            sent(name, code=start, limits=[1] * 5)


def tags_nearly_empty():
    """Lines by name: a tag that is empty or nearly so, and what stands beside it."""
    opener = EMPTY_TAG[:-1]
    firsts = {"space": mk.tag(b" "), "zero": mk.tag(b"0"), "eight-zeros": mk.tag(b"0" * 8), "eight-spaces": mk.tag(b" " * 8),
              "two-ends": EMPTY_TAG + b"}", "a-date-behind-its-end": EMPTY_TAG + b"20220615}", "no-end": opener, "twice": EMPTY_TAG * 2,
              "at-the-end-of-its-line": b" " * (64 - len(EMPTY_TAG)) + EMPTY_TAG, "contract-date-in-1999": mk.tag(19991231),
              "first-date": mk.tag(ref.FIRST_DATE), "contract-date-after-the-day": mk.tag(20230131)}
    return {name: {"line1": line} for name, line in firsts.items()} | {
        "in-both-lines": {"line1": EMPTY_TAG, "line2": EMPTY_TAG},
        "beside-a-date": {"line1": EMPTY_TAG, "line2": mk.tag(20220615)},
        "end-in-line-2": {"line1": b" " * (64 - len(opener)) + opener, "line2": b"}"},
        "opener-in-both-lines": {"line1": b" " * (65 - len(opener)) + opener[:-1], "line2": b"/}"}}


def empty_tags():
    """Empty tags on both sides of the memo: in either line, of each class, with codes of each kind, all in a security with rows for fails
    and one for an interim claim; then tags that are nearly empty."""
    for day in (LAST_DAY, MEMO_DAY):
        _, sent = memo_run("empty-tag-%d" % day, day)
        for line in ("line1", "line2"):
            for klass in (0, 1):
                for code in (0, 1, 3, 7, 9):
                    sent("%s-class-%d-code-%d" % (line, klass, code), "interim-behind", 100_000, code, code in (3, 9), klass=klass,
                         **{line: EMPTY_TAG})
        for name, lines in tags_nearly_empty().items():
            sent(name, "interim-behind", **lines)


def codes_before_the_memo():
    """Every code on both sides of the memo, from account 1 to account 2 and back; some with a tag."""
    for day in (LAST_DAY, MEMO_DAY):
        _, sent = memo_run("codes-%d" % day, day)
        for code in range(rules.last_code + 2):
            sent("code-%d" % code, code=code)
            sent("code-%d-back" % code, code=code, back=True)
        for code in (1, 3, 7, 9):
            sent("code-%d-with-a-tag" % code, code=code, back=code in (3, 9), contract=20220615)


def causes_beside_fifteen():
    """Codes of loans on a day before the memo with causes that come before 15 and causes that come behind it. Then saved books with a loan,
    on both sides of the memo."""
    run, sent = memo_run("beside-15", LAST_DAY)
    thousand, word = [1_000] * 16, word_of("type-3")
    for name, code, back in (("increase", 1, False), ("decrease", 3, True)):
        for cause, more in {
                "on-its-piece": {"pieces": thousand}, "off-its-piece": {"par": 1_500, "pieces": thousand},
                "no-date": {"contract": b"2022061"}, "contract-date-after-the-day": {"contract": MEMO_DAY},
                "class-1": {"contract": 20230126, "klass": 1}, "two-tags": {"line1": EMPTY_TAG * 2}, "no-end": {"line1": EMPTY_TAG[:-1]},
                "par-0": {"par": 0}, "class-2": {"klass": 2}, "bad-limits": {"limits": step_files.BROKEN[0]},
                "bad-pieces": {"pieces": step_files.BROKEN_PIECES[0]}, "no-room": {"room": 0}}.items():
            sent("%s-%s" % (name, cause), **({"par": 1_000, "code": code, "back": back} | more))
    run.save(LAST_DAY, {word: 40_500}, 4_294_967_295)
    sent("increase-with-a-full-count", par=1_000, code=1)
    sent("decrease-with-a-full-count", par=1_000, code=3, back=True)
    run.save(20230128, {word: 40_500})
    sent("increase-on-a-closed-day", par=1_000, code=1)
    for day in (LAST_DAY, MEMO_DAY):
        for par in (1_000, 1_500, 40_500, 41_000, 41_500):
            run.save(day, {word: 40_500})
            sent("%d-decrease-of-%d" % (day, par), par=par, code=3, back=True, pieces=thousand)
        run.save(day, {word: 9_000_000_000})
        sent("%d-past-the-limit-on-its-piece" % day, par=1_000, code=1, pieces=thousand)
        sent("%d-past-the-limit-off-its-piece" % day, par=1_500, code=1, pieces=thousand)


def over_the_memo():
    """A history that begins before the memo and goes over it and over a Record Date: the same calls on each day."""
    run, sent = memo_run("history", LAST_DAY)
    for day in (LAST_DAY, MEMO_DAY, 20230131, 20230201):
        sent("%d-fail" % day, contract=20220615)
        sent("%d-loan" % day, par=50_000, code=1)
        sent("%d-repo" % day, par=30_000, code=7)
        sent("%d-empty-tag" % day, line2=EMPTY_TAG)
        sent("%d-fail-of-type-1" % day, "type-1", contract=20220615)
        sent("%d-loan-return" % day, par=20_000, code=3, back=True)
        sent("%d-repo-return" % day, par=10_000, code=9, back=True)
        run.close("%d-close" % day)


def held_before_the_memo():
    """Saved books with a loan and a repo on days before the memo: returns, a close over a Record Date, and returns after it. The first
    close stays before the memo, the second goes to the memo's day."""
    run, sent = memo_run("held", 20221230)
    for day, securities in ((20221230, ("type-1", "type-3", "outcomes")), (LAST_DAY, ("on-the-day",))):
        places = [word_of(security) + at for security in securities for at in (0, step_files.REPO_AT)]
        run.save(day, {place: 50_000 + place for place in places})
        for moment in ("before", "after"):
            for security in securities:
                sent("%s-loan-return-%s-the-close-of-%d" % (security, moment, day), security, 10_000, 3, True)
                sent("%s-repo-return-%s-the-close-of-%d" % (security, moment, day), security, 10_000, 9, True)
            if moment == "before":
                run.close("close-of-%d-one-byte-short" % day, room=35 * len(places) - 1)
                run.close("close-of-%d" % day, room=35 * len(places))


def carried_books():
    """Saved books carried over: the return and the close that follow, then each cause of a refusal, the edges about it, and two causes at
    once."""
    tables = mk.cases_tables()
    run = Run("carry-over", 20230331, tables)
    run.carry_over("saved", 20230331, {18: 15_000}, 3)
    run.transfer("return", 2, 1, 0, 5_000, 3)
    run.close("close")
    for name, day, words, more in (
            ("closed-day", 20230401, {18: 15_000}, {}), ("last-open-day", 20391230, {}, {}), ("day-before-the-last", 20391229, {}, {}),
            ("first-open-day", 20000103, {18: 15_000}, {}), ("no-date", 20230229, {}, {}), ("day-0", 0, {}, {}),
            ("4095-saved", 20230331, {18: 15_000}, {"saved": 4_095}), ("4097-saved", 20230331, {}, {"saved": 4_097}),
            ("8192-saved", 20230331, {18: 15_000}, {"saved": 8_192}), ("none-saved", 20230331, {}, {"saved": 0}),
            ("8191-balances", 20230331, {18: 15_000}, {"lent": 8_191}), ("4096-balances", 20230331, {18: 15_000}, {"lent": 4_096}),
            ("no-balances", 20230331, {}, {"lent": 0}), ("479-calendar-words", 20230331, {18: 15_000}, {"calendar_words": 479}),
            ("no-calendar", 20230331, {}, {"calendar_words": 0}),
            ("479-calendar-words-on-a-closed-day", 20230401, {}, {"calendar_words": 479}),
            ("4095-saved-past-the-limit", 20230331, {19: 9_000_000_001}, {"saved": 4_095}),
            ("past-the-limit", 20230331, {19: 9_000_000_001}, {}), ("past-the-limit-last", 20230331, {4_094: 9_000_000_001}, {}),
            ("largest-word", 20230331, {1: 2 ** 64 - 1}, {}), ("at-the-limit", 20230331, {1: 9_000_000_000, 4_094: 9_000_000_000}, {}),
            ("with-itself", 20230331, {17: 1}, {}), ("with-itself-first", 20230331, {0: 1}, {}),
            ("with-itself-last", 20230331, {4_095: 1}, {}), ("with-itself-between", 20230331, {7 * 256 + 4 * 17: 9_000_000_000}, {}),
            ("around-with-itself", 20230331, {7 * 256 + 4 * 17 + d: 7 for d in (-16, -1, 1, 16)}, {})):
        run.carry_over(name, day, words, 3, **more)
    run.carry_over("old-day-and-full-count", 20030404, {18: 15_000}, 4_294_967_295)
    run.transfer("with-a-full-count", 1, 2, 0, 200_000)
    run.close("close-of-20030404")
    bad = list(CALENDAR)
    bad[0] |= 1 << 31
    steps.set_tables(bad, tables)
    for name, day, words, more in (
            ("bad-calendar", 20230331, {18: 15_000}, {}), ("bad-calendar-and-closed-day", 20230401, {18: 15_000}, {}),
            ("bad-calendar-with-itself", 20230331, {17: 1}, {}), ("bad-calendar-and-4095-saved", 20230331, {}, {"saved": 4_095}),
            ("bad-calendar-and-8191-balances", 20230331, {}, {"lent": 8_191})):
        run.carry_over(name, day, words, 3, **more)


def carried_histories():
    """One list of calls without repo codes, carried over before each of them and behind the last: a loan counts both sides of the move, in
    what is claimed and in what can be returned. Then repos beside the loan."""
    calendar = mk.only((20230331, 20230403, 20230428, 20230501, 20230502, 20230515))
    tables = mk.tables_of({s: mk.security(3, 1, [mk.cases_row(4), mk.cases_row(5)]) for s in (0, 15)})
    calls = {
        "lent": ((1, 2, 0, 50_000, 1), {}), "lent-back": ((2, 1, 0, 3_000, 4), {}),
        "lent-in-the-last-security": ((15, 14, 15, 70_000, 5), {}), "returned": ((2, 1, 0, 20_000, 3), {}), "close-of-20230331": (None, {}),
        "fail": ((1, 2, 0, 200_000), {"contract": 20230315}),
        "returned-above-it": ((2, 1, 0, 30_001, 2), {}), "lent-more": ((1, 2, 0, 10_000, 5), {}), "close-of-20230403": (None, {}),
        "returned-after-it": ((2, 1, 0, 15_000, 6), {}), "close-of-20230428": (None, {}), "returned-in-full": ((2, 1, 0, 25_000, 2), {})}
    for moved in range(len(calls) + 1):
        run = Run("carried-behind-%d-calls" % moved, 20230331, tables, calendar)
        run.move("move", 20230331, list(calls.values())[:moved])
        for name, (fields, more) in list(calls.items())[moved:]:
            if fields is None:
                run.close(name)
            else:
                run.transfer(name, *fields, **more)
    run = Run("carried-with-repos", 20230331, tables, calendar)
    run.move("move", 20230331, list(calls.values())[:8])
    for name, *fields in (
            ("repo", 1, 2, 0, 40_000, 7), ("repo-returned-above-it", 2, 1, 0, 40_001, 9), ("repo-returned", 2, 1, 0, 5_000, 9),
            ("loan-returned", 2, 1, 0, 15_000, 3), ("repo-in-the-last-security", 15, 14, 15, 1, 10)):
        run.transfer(name, *fields)
    run.transfer("loan-off-its-piece", 2, 1, 0, 12_500, 3, pieces=[1_000] * 16)
    run.transfer("with-limits", 1, 2, 0, 200_000, contract=20230315, limits=[1] * 5)
    run.close("close-of-20230403")
    run.close("close-of-20230428-one-byte-short", room=35 * 5 - 1)
    run.close("close-of-20230428", room=35 * 5)


def carried_over_the_memo():
    """Books of days before the memo carried over: a loan that was saved, and a history; calls before the memo's day and behind it."""
    places = {word_of("on-the-day"): 50_000, word_of("type-3"): 7_000}
    run, sent = memo_run("carried", LAST_DAY)
    run.carry_over("saved", LAST_DAY, places, 5)
    for day in (LAST_DAY, MEMO_DAY):
        sent("%d-loan-return" % day, "on-the-day", 20_000, 3, True)
        sent("%d-loan" % day, "on-the-day", 10_000, 1)
        sent("%d-fail" % day, contract=20220615)
        sent("%d-empty-tag" % day, line2=EMPTY_TAG)
        run.close("%d-close" % day)
    run.carry_over("saved-with-repos", LAST_DAY, places)
    sent("repo", "on-the-day", 30_000, 7)
    run.close("with-repos-close")
    sent("repo-return", "on-the-day", 30_000, 9, True)
    sent("loan-return", "on-the-day", 50_000, 3, True)
    on_the_day = list(SECURITIES).index("on-the-day")
    run.move("history", LAST_DAY, [((1, 2, on_the_day, 100_000), {"contract": 20220615}), ((1, 2, on_the_day, 100_000, 1), {})])
    for day in (LAST_DAY, MEMO_DAY):
        sent("history-%d-loan" % day, "on-the-day", 10_000, 1)
        sent("history-%d-fail" % day, "on-the-day", contract=20220615)
        run.close("history-%d-close" % day)


def place_in(mark, word):
    """The place of the store with this word of a mark."""
    return step_files.MARK_WORDS * (mark - 1) + word


# A book that is marked, with a loan and a repo, and one that a return is made from.
MARKED = (20230331, {18: 15_000, 4_114: 7}, 5)
PRESENT = (20230404, {20: 1, 4_100: 5}, 9)
# Words of the store that are not zero, though no mark is set: the first and last words of each mark, and the word behind the store.
STRAY = {place: 7 + place for mark in range(1, 5) for place in (*(place_in(mark, w) for w in (0, 1, 2, 3, 21, 4_099)), place_in(mark, -1))
         if place >= 0} | {step_files.STORE_WORDS - 1: 3, step_files.STORE_WORDS: 4}
# Balances that 4 refuses, and balances about them that it does not.
REFUSED_BALANCES = {
    "with-itself": {17: 1}, "with-itself-first": {0: 1}, "with-itself-on-repo": {4_113: 1}, "with-itself-first-on-repo": {4_096: 1},
    "with-itself-last": {8_191: 9_000_000_000}, "past-the-limit": {18: 9_000_000_001}, "past-the-limit-first": {1: 9_000_000_001},
    "past-the-limit-on-repo": {4_114: 9_000_000_001}, "past-the-limit-last": {8_190: 9_000_000_001}, "largest-word": {19: 2 ** 64 - 1}}
TAKEN_BALANCES = {"at-the-limit": {1: 9_000_000_000, 8_190: 9_000_000_000}, "around-with-itself": {4_113 + d: 7 for d in (-16, -1, 1, 16)},
                  "no-par": {18: 0, 4_114: 0}}
# Words of mark 2 for which a return is refused, and others with which it is not.
UNSET = {"flag-%d" % n: {0: n} for n in (0, 2, 257, 2 ** 32, 2 ** 32 + 1, 2 ** 63 + 1, 2 ** 64 - 1)}
BAD_COUNTS = {"count-%d" % n: {2: n} for n in (2 ** 32, 2 ** 32 + 5, 2 ** 64 - 1)}
BAD_DAYS = {"day-%d" % n: {1: n} for n in (0, 20230401, 20230229, 20391230, 20391231, 2 ** 32 - 1, 2 ** 32 + 20230331, 2 ** 63 + 20230331,
                                           2 ** 64 - 1)}
TAKEN_WORDS = {"count-0": {2: 0}, "count-4294967295": {2: 2 ** 32 - 1}, "first-open-day": {1: 20000103}, "day-before-the-last": {1: 20391229},
               "day-before-the-memo": {1: LAST_DAY}}


def mark_run(name):
    """A run on the cases, with a store of stray words, in which mark 2 is set on a saved book with a loan and a repo."""
    run = Run(name, 20230331, mk.cases_tables())
    run.write_store({w: 0 for w, value in enumerate(steps.store) if value} | STRAY)
    run.save(*MARKED)
    run.set_mark("set-2", 2)
    return run


def marks_set():
    """A mark of a saved book, and returns to it and to others; marks that there are not, and stores of other lengths. Then marks at the ends
    of the store, over stray words, with other books."""
    run = mark_run("mark")
    run.save(*PRESENT)
    for name, mark in (("return", 2), ("return-again", 2), ("return-to-1", 1), ("return-to-3", 3), ("return-to-4", 4)):
        run.go_back(name, mark)
    run.transfer("loan-returned", 2, 1, 0, 5_000, 3)
    run.close("close")
    run.save(*PRESENT)
    for call, made in (("set", run.set_mark), ("return-to", run.go_back)):
        for mark in (0, 5, 9, 255, 256, 257, 258, 65_538, 2 ** 31 + 2, 2 ** 32 - 1):
            made("%s-%d" % (call, mark), mark)
        for mark, words in ((2, 0), (1, 8_195), (2, 8_195), (2, 16_390), (2, 24_585), (2, 32_779), (2, 32_781), (4, 32_779), (5, 32_781)):
            made("%s-%d-in-%d-words" % (call, mark, words), mark, store_words=words)
        for name, more in (("479-calendar-words", {"calendar_words": 479}), ("no-calendar", {"calendar_words": 0}),
                           ("8191-balances", {"lent": 8_191}), ("4096-balances", {"lent": 4_096}), ("no-balances", {"lent": 0})):
            made("%s-2-with-%s" % (call, name), 2, **more)
            made("%s-9-with-%s-in-no-words" % (call, name), 9, store_words=0, **more)
    for mark, day, words, count in ((1, 20391229, {1: 9_000_000_000}, 2 ** 32 - 1), (4, 20000103, {8_190: 9_000_000_000}, 0),
                                    (3, MEMO_DAY, TAKEN_BALANCES["around-with-itself"], 1), (2, LAST_DAY, {}, 7)):
        run.save(day, words, count)
        run.set_mark("set-%d-on-%d" % (mark, day), mark)
    for mark in (4, 1, 2, 3):
        run.go_back("return-to-%d-of-four" % mark, mark)
        if mark == 1:
            run.transfer("with-a-full-count", 1, 2, 0, 200_000)


def marks_refused():
    """A return to mark 2 with words of it written, each alone, from a book other than the marked one; then with two words, for a mark that there
    is not, and in a store that is too long."""
    run = mark_run("spoilt-mark")
    set_words = steps.store[:]
    for name, words in {
            **UNSET, **BAD_COUNTS, **BAD_DAYS, **{"saved-" + name: {3 + w: par for w, par in words.items()} for name, words in REFUSED_BALANCES.items()},
            **TAKEN_WORDS, **{"saved-" + name: {3 + w: par for w, par in words.items()} for name, words in TAKEN_BALANCES.items()},
            "flag-0-alone": {0: 0, 1: 0, 2: 0, 21: 0, 4_117: 0}}.items():
        places = {place_in(2, word): value for word, value in words.items()}
        run.save(*PRESENT)
        run.write_store(places)
        run.go_back(name, 2)
        run.write_store({place: set_words[place] for place in places})
    run.save(*PRESENT)
    run.write_store({place_in(2, 0): 0})
    run.go_back("flag-0-in-32781-words", 2, store_words=32_781)
    run.go_back("flag-0-to-6", 6)
    run.set_mark("set-over-flag-0", 2)
    run.write_store({place_in(2, 1): 20230401, place_in(2, 2): 2 ** 32, place_in(2, 20): 2 ** 64 - 1})
    run.go_back("three-words-written", 2)
    run.set_mark("set-over-three-words", 2)
    run.save(*MARKED)
    run.go_back("return-after-it", 2)


def present_book_refused():
    """Both calls on books that 4 refuses: with a mark that is set, with one that is not, with a mark that there is not, and with a store that is
    too short. Then a bad calendar, and one with the marked day closed."""
    run = mark_run("present")
    for name, day, words in [("day-%d" % day, day, MARKED[1]) for day in (20230401, 20230229, 20391230, 0)] + [
            (name, MARKED[0], words) for name, words in REFUSED_BALANCES.items()]:
        run.save(day, words, 5)
        run.set_mark(name + "-set-2", 2)
        run.go_back(name + "-return-to-2", 2)
        run.set_mark(name + "-set-9", 9)
        run.go_back(name + "-return-to-9", 9)
        run.go_back(name + "-return-to-1", 1)
        run.set_mark(name + "-set-2-in-32779-words", 2, store_words=32_779)
    bad = list(CALENDAR)
    bad[0] |= 1 << 31
    for name, calendar, book in (
            ("bad-calendar", bad, PRESENT), ("bad-calendar-and-closed-day", bad, (20230401, {}, 5)),
            ("marked-day-closed", mk.only((20230403, 20230404, 20230405)), PRESENT),
            ("marked-day-last", mk.only((20230330, 20230331)), (20230330, {20: 1}, 9)),
            ("marked-day-open-alone", mk.only((20230330, 20230331, 20391231)), (20230330, {20: 1}, 9))):
        steps.set_tables(calendar, steps.tables)
        run.save(*book)
        run.go_back(name + "-return", 2)
        run.save(*book)
        run.set_mark(name + "-set-9", 9)
        run.set_mark(name + "-set-3", 3)
        run.set_mark(name + "-set-3-with-8191-balances", 3, lent=8_191)


TRIAL_CALENDAR = mk.only((20230331, 20230403, 20230428, 20230501, 20230502, 20230515))
TRIAL_TABLES = mk.tables_of({s: mk.security(3, 1, [mk.cases_row(4), mk.cases_row(5)]) for s in (0, 15)})


def trial_run(name, day=20230331):
    """A run with a store of zeros, on open days around two Record Dates."""
    run = Run("trial-" + name, day, TRIAL_TABLES, TRIAL_CALENDAR)
    run.write_store({w: 0 for w, value in enumerate(steps.store) if value})
    return run


def made_calls(run, calls, more=""):
    """Calls by name: the fields of a transfer, or None for a close."""
    for name, (fields, lent) in calls.items():
        if fields is None:
            run.close(name + more)
        else:
            run.transfer(name + more, *fields, **lent)


def trials_of_a_list():
    """One list of calls with a mark set at four places of it, of which one is behind its end; each is returned to, and the calls behind it are
    made again. Then returns from one mark's history to another's, with other calls."""
    run = trial_run("list")
    parts = (
        {"lent": ((1, 2, 0, 50_000, 1), {}), "repo": ((1, 2, 0, 40_000, 7), {}), "lent-in-the-last-security": ((15, 14, 15, 70_000, 5), {})},
        {"returned": ((2, 1, 0, 20_000, 3), {}), "close-of-20230331": (None, {})},
        {"fail": ((1, 2, 0, 200_000), {"contract": 20230315}), "returned-above-it": ((2, 1, 0, 30_001, 2), {}),
         "repo-returned": ((2, 1, 0, 15_000, 9), {}), "repo-the-other-way": ((2, 1, 15, 1_000, 10), {}), "close-of-20230403": (None, {})},
        {"lent-more": ((1, 2, 0, 10_000, 5), {}), "no-account": ((1, 16, 0, 10_000, 5), {}), "close-of-20230428": (None, {}),
         "returned-in-full": ((2, 1, 0, 40_000, 2), {})})
    places = {1: 1, 3: 2, 4: 3, 2: 4}        # each mark with how many parts stand before it
    for i, part in enumerate(parts):
        made_calls(run, part)
        for mark in (mark for mark, place in places.items() if place == i + 1):
            run.set_mark("mark-%d" % mark, mark)
    for mark in (3, 1, 4, 2):
        run.go_back("return-to-%d" % mark, mark)
        run.go_back("return-to-%d-twice" % mark, mark)
        for part in parts[places[mark]:]:
            made_calls(run, part, "-after-%d" % mark)
    run.go_back("return-to-1-from-2", 1)
    run.transfer("loan-returned-after-1", 2, 1, 0, 50_000, 3)
    run.close("close-with-the-repo-after-1")
    run.go_back("return-to-2-from-1", 2)
    run.go_back("return-to-3-from-2", 3)
    run.close("close-after-3-from-2")


def trials_crosswise():
    """Two marks returned to crosswise, other work done behind each; marks set again, on later and on earlier days; returns to marks that are
    not set and to none in the middle; an opening between a mark and its return."""
    run = trial_run("crosswise")
    run.go_back("return-before-any-mark", 1)
    run.set_mark("mark-1-of-the-opening", 1)
    run.transfer("lent", 1, 2, 0, 10_000, 1)
    run.set_mark("mark-2", 2)
    run.transfer("repo", 1, 2, 0, 30_000, 7)
    run.close("close-with-both")
    for name, mark in (("return-to-1", 1), ("return-to-2", 2), ("return-to-1-again", 1)):
        run.go_back(name, mark)
    run.transfer("lent-in-its-place", 1, 2, 0, 25_000, 1)
    run.go_back("return-to-3-unset", 3)
    run.go_back("return-to-0", 0)
    run.set_mark("mark-5", 5)
    run.close("close-in-its-place")
    run.transfer("returned-in-its-place", 2, 1, 0, 25_001, 3)
    run.go_back("return-to-2-across", 2)
    run.close("close-across")
    run.set_mark("mark-2-again", 2)
    run.transfer("fail", 1, 2, 0, 200_000, contract=20230315)
    run.set_mark("mark-4", 4)
    run.go_back("return-to-1-over-both", 1)
    run.set_mark("mark-4-again-on-an-earlier-day", 4)
    run.transfer("repo-in-its-place", 1, 2, 0, 5_000, 7)
    run.go_back("return-to-2-on-a-later-day", 2)
    run.transfer("returned", 2, 1, 0, 10_000, 3)
    run.go_back("return-to-4", 4)
    run.close("close-of-nothing")
    run.open("opening-again", 20230403)
    run.transfer("lent-behind-it", 3, 4, 15, 1_000, 1)
    run.go_back("return-to-2-over-the-opening", 2)
    run.transfer("returned-over-the-opening", 2, 1, 0, 4_000, 3)
    run.close("close-over-the-opening")
    run.close("close-of-20230428")


def trials_with_old_marks():
    """A store that another run has left: its marks are returned to from an opening on a later day, and overwritten."""
    run = Run("trial-old-marks", 20230502, TRIAL_TABLES, TRIAL_CALENDAR)
    run.go_back("return-to-3-unset", 3)
    run.transfer("lent", 1, 2, 0, 10_000, 1)
    run.set_mark("mark-1", 1)
    run.go_back("return-to-an-old-one", 2)
    run.close("close-after-an-old-one")
    run.go_back("return-to-its-own", 1)
    run.transfer("returned", 2, 1, 0, 10_000, 3)
    run.set_mark("mark-2-over-an-old-one", 2)
    run.go_back("return-to-another-old-one", 4)
    run.go_back("return-to-2", 2)
    run.transfer("returned-above-it", 2, 1, 0, 1, 3)


def trials_with_other_tables():
    """Calendar and tables that change between a mark and its return: the close behind it is over the dates and rows that it is lent."""
    run = trial_run("other-tables")
    run.transfer("lent", 1, 2, 0, 10_000, 1)
    run.transfer("repo", 2, 1, 0, 20_000, 7)
    run.set_mark("mark", 1)
    run.close("close")
    twice = [mk.cases_row(4)._replace(interest_factor=2 * mk.cases_row(4).interest_factor), mk.cases_row(5)]
    steps.set_tables(mk.only((20230331, 20230404, 20230405)), mk.tables_of({0: mk.security(3, 1, twice)}))
    run.go_back("return-from-a-closed-day", 1)
    run.open("opening-on-another-day", 20230404)
    run.go_back("return", 1)
    run.close("close-over-other-rows")
    steps.set_tables(mk.only((20230404, 20230405, 20230502, 20230503)), TRIAL_TABLES)
    run.go_back("return-to-a-closed-day", 1)
    run.close("close-of-20230404")
    steps.set_tables(TRIAL_CALENDAR, TRIAL_TABLES)
    run.open("opening-on-20230502", 20230502)
    run.go_back("return-as-it-was", 1)
    run.close("close-as-it-was")


def trials_over_the_memo():
    """Marks on both sides of the memo's day, each returned to from the other side: the rules are those of the day that comes back."""
    run, sent = memo_run("trial", LAST_DAY)

    def calls(more):
        sent("fail" + more, contract=20220615)
        sent("loan" + more, "on-the-day", par=50_000, code=1)
        sent("repo" + more, "on-the-day", par=30_000, code=7)
        sent("empty-tag" + more, line2=EMPTY_TAG)

    calls("")
    run.set_mark("mark-1", 1)
    run.close("close-of-%d" % LAST_DAY)
    calls("-from-it-on")
    run.set_mark("mark-2", 2)
    run.close("close-of-%d" % MEMO_DAY)
    run.go_back("return-before-it", 1)
    calls("-back-before-it")
    run.close("close-back-before-it")
    run.go_back("return-from-it-on", 2)
    calls("-back-from-it-on")
    run.go_back("return-before-it-again", 1)
    run.go_back("return-to-3-unset", 3)
    sent("repo-return", "on-the-day", 30_000, 9, True)
    run.close("close-with-nothing")


def trials_of_carried_books():
    """A history that is carried over, marked at once and behind a call, and returned to; then a saved book that is carried over, marked with old
    marks in the store, and carried over again."""
    run = trial_run("carried")
    run.move("move", 20230331, [((1, 2, 0, 50_000, 1), {}), ((15, 14, 15, 70_000, 5), {}), ((2, 1, 0, 20_000, 3), {})])
    run.set_mark("mark-3", 3)
    run.transfer("returned-above-it", 2, 1, 0, 30_001, 3)
    run.transfer("returned", 2, 1, 0, 30_000, 3)
    run.set_mark("mark-4", 4)
    run.close("close")
    run.go_back("return-to-3", 3)
    run.close("close-after-3")
    run.go_back("return-to-4", 4)
    run.transfer("lent", 1, 2, 0, 1_000, 5)
    run.transfer("repo", 1, 2, 0, 2_000, 7)
    run.close("close-after-4")
    run.go_back("return-to-3-again", 3)
    run.transfer("returned-after-3", 2, 1, 0, 30_000, 3)
    run.close("close-after-3-again")
    run.carry_over("saved", 20230428, {18: 15_000}, 2 ** 32 - 2)
    run.set_mark("mark-3-of-a-saved-book", 3)
    run.transfer("repo-of-a-saved-book", 1, 2, 0, 2_000, 7)
    run.carry_over("saved-again", 20230331, {19: 1_000}, 3)
    run.go_back("return-to-3-of-a-saved-book", 3)
    run.close("close-of-a-saved-book")
    run.go_back("return-to-4-from-a-saved-book", 4)
    run.close("close-after-4-from-a-saved-book")


document_cases()
mistakes()
memo_fails()
memo_interim()
interim()
long_delay()
memo_balances("lending", 1, 30_000)
memo_balances("repo", 7, 40_000)
repos()
limits_on_the_cases()
limits_by_security()
pieces()
memo_219_fails()
half_years()
fails_before_the_memo()
limits_before_the_memo()
empty_tags()
codes_before_the_memo()
causes_beside_fifteen()
over_the_memo()
held_before_the_memo()
carried_books()
carried_histories()
carried_over_the_memo()
marks_set()
marks_refused()
present_book_refused()
trials_of_a_list()
trials_crosswise()
trials_with_old_marks()
trials_with_other_tables()
trials_over_the_memo()
trials_of_carried_books()
steps.write(sys.argv[2])
