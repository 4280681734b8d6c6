"""The calls at the ends of their ranges, by the reference.

    python3 extremes.py REFERENCE_FOLDER STEPS_FILE

writes the calls to STEPS_FILE (crates/extremes/data/extremes.in) and prints what the program extremes has to write for them
(crates/extremes/stdout): for each call its name, number, day, count and claims, and the checksums of the claim buffer and of the
balances after it; for a call that sets a mark or returns to one those of the balances and of the store. Where a step fills all words of the
balances, it fills those of repos too.
"""
import sys

import step_files

ref, mk, cards = step_files.reference_modules(sys.argv[1], "reference", "makebook", "cards")
rules = cards.Rules(step_files.CARDS)
steps = step_files.Steps(ref, rules)
LIMIT = 9_000_000_000
FACTOR = 2_000_000_000
PAIRS = [(lender, borrower) for lender in range(16) for borrower in range(16) if lender != borrower]
EVERY_CLAIM = 16 * 16 * len(PAIRS) * len(rules.kinds)


def show(name, result):
    print(name, result.number, result.book.day, result.book.count, result.claims,
          step_files.checksum(result.buffer), step_files.checksum(result.balances))


def opening(name, day):
    show(name, steps.open(name, day))


def transfer(name, room, *fields, limits=None, pieces=None, **more):
    show(name, steps.transfer(name, mk.transfer(*fields, **more), room, limits, pieces))


def close(name, room):
    show(name, steps.close(name, mk.close(), room))


def mark(name, form, number):
    """A mark set or returned to."""
    result = form(name, number)
    print(name, result.number, result.book.day, result.book.count, result.claims, step_files.checksum(result.balances),
          step_files.checksum(steps.store))


def balances_of(*entries, start=0):
    """Balances with these loans, or with these repos where start is the first word of repos."""
    words = [0] * rules.words
    for security, lender, borrower, par in entries:
        words[start + ref.place(security, lender, borrower)] = par
    return words


def limits(name, start, code):
    """Balances at the limit, past it and with themselves, in the half of the words that starts here; its codes follow this one."""
    steps.set_book(20230331, 0, balances_of((0, 1, 2, LIMIT - 100_000_000), (15, 15, 14, LIMIT), start=start))
    transfer(name + "start-past-the-limit", 0, 15, 14, 15, 1, code + 1)
    transfer(name + "start-to-the-limit", 0, 1, 2, 0, 100_000_000, code + 1)
    transfer(name + "increase-past-the-limit", 0, 1, 2, 0, 1, code + 5)
    transfer(name + "decrease-above-nothing", 0, 1, 2, 0, 1, code + 3)
    close(name + "close-at-the-limit-one-byte-short", 69)
    close(name + "close-at-the-limit", 70)
    transfer(name + "return-from-the-limit", 0, 2, 1, 0, 100_000_000, code + 3)
    for which, entry in (("past-the-limit", (0, 1, 2, LIMIT + 1)), ("with-itself", (15, 15, 15, 1)), ("with-itself-first", (0, 0, 0, 1))):
        steps.set_book(20230404, 0, balances_of(entry, start=start))
        close("%sbalance-%s" % (name, which), 0)


def pieces():
    """The largest pieces: par at its limit, a balance that one transfer can just clear, a balance at the limit, the last security."""
    steps.set_book(20230403, 0, balances_of((0, 1, 2, 99_999_999), (15, 15, 14, LIMIT)))
    largest = [1_000_000] * 16
    transfer("largest-par-in-the-largest-pieces", 35, 3, 4, 0, 100_000_000, contract=20230331, pieces=largest)
    transfer("largest-par-but-one-off-the-largest-pieces", 35, 3, 4, 0, 99_999_999, contract=20230331, pieces=largest)
    transfer("largest-par-off-its-piece", 35, 3, 4, 0, 100_000_000, contract=20230331, pieces=[999_983] * 16)
    transfer("smallest-par-off-the-last-piece", 35, 3, 4, 15, 1, contract=20230331, pieces=[1] * 15 + [1_000_000])
    transfer("smallest-par-beside-the-last-piece", 35, 3, 4, 0, 1, contract=20230331, pieces=[1] * 15 + [1_000_000])
    transfer("smallest-par-beside-the-first-piece", 35, 3, 4, 15, 1, contract=20230331, pieces=[1_000_000] + [1] * 15)
    transfer("return-from-the-limit-off-its-piece", 0, 14, 15, 15, 100_000_000, 3, pieces=[999_983] * 16)
    transfer("return-from-the-limit-on-its-piece", 0, 14, 15, 15, 99_998_300, 3, pieces=[999_983] * 16)
    transfer("return-of-the-whole-balance-off-its-piece", 0, 2, 1, 0, 99_999_999, 3, pieces=largest)
    transfer("return-of-nothing-left-off-its-piece", 0, 2, 1, 0, 99_999_999, 3, pieces=largest)


def largest_amounts():
    """Balances at the limit, factors at the limit, the count at its end."""
    row = ref.Row(20230401, 20230401, 20230415, FACTOR, FACTOR, 0, 0)
    steps.set_tables(mk.weekdays(), mk.tables_of({s: mk.security(s % 4 + 1, 1, [row]) for s in (0, 15)}))
    for kind, (name, (_, start)) in enumerate(zip(("", "repo-"), rules.kinds)):
        limits(name, start, 6 * kind)
    steps.set_book(20230403, 0, balances_of())
    transfer("fail-of-the-largest-par", 35, 3, 4, 0, 100_000_000, contract=20230331)
    transfer("fail-of-the-smallest-par", 35, 3, 4, 15, 1, contract=20230331)
    steps.set_book(20230404, 4_294_967_294, balances_of((0, 1, 2, LIMIT)))
    transfer("last-transfer-number", 35, 3, 4, 0, 1, contract=20230331)
    transfer("no-transfer-number-left", 35, 3, 4, 0, 1, contract=20230331)
    close("close-with-the-count-at-its-end", 0)
    pieces()
    steps.set_book(20230404, 7, [2 ** 64 - 1] * rules.words)
    transfer("largest-words", 0, 1, 2, 0, 1)
    opening("opening-over-the-largest-words", 20230404)


def last_days():
    """The last two dates, and the first."""
    rows = [ref.Row(20391201, 20391202, 20391230, 10_000_000, 20_000_000, 0, 0),
            ref.Row(20391230, 20391230, 20391231, 10_000_000, 0, 0, 0)]
    tables = mk.tables_of({7: mk.security(3, 1, rows)})
    steps.set_tables(mk.only([20000101, 20391229, 20391230, 20391231]), tables)
    opening("opening-on-the-first-date", 20000101)
    opening("opening-on-the-last-date", 20391231)
    opening("opening-before-the-last-date", 20391230)
    transfer("fails-before-the-last-date", 70, 0, 15, 7, 1_000, contract=20391201)
    close("close-before-the-last-date", 35)
    opening("opening-two-before-the-last-date", 20391229)
    transfer("start-two-before-the-last-date", 0, 0, 15, 7, 1_000, 1)
    close("close-two-before-the-last-date", 35)
    close("close-with-no-open-day-behind", 35)
    steps.set_book(20391231, 0, balances_of())
    close("book-on-the-last-date", 0)
    transfer("transfer-on-the-last-date", 0, 0, 15, 7, 1)
    steps.set_tables(mk.only([20391230, 20391231]), tables)
    opening("last-dates-alone", 20391230)
    opening("last-date-alone", 20391231)
    steps.set_tables(mk.only([20391231]), tables)
    opening("one-open-day", 20391231)


def every_balance():
    """Balances with another par in each word of two accounts."""
    words = [0] * rules.words
    for kind, (_, start) in enumerate(rules.kinds):
        for s in range(16):
            for lender, borrower in PAIRS:
                words[start + ref.place(s, lender, borrower)] = 1 + (lender * 977 + borrower * 31 + s + 16 * kind) * 2_000_003 % LIMIT
    return words


def every_row():
    """All rows of all securities between two open days, for all pairs of accounts."""
    def row(s, r):
        year = 2001 + 2 * r
        return ref.Row(10000 * year + 101 + s, 10000 * year + 102 + s, 10000 * (year + s // 2) + 1215,
                       (0, 1, 4_999_999, FACTOR)[(s + r) % 4], (0, FACTOR, 123_456_789)[r % 3],
                       int(r % 5 == 4), (0, 1 << s, 0xFFFF)[(s + 2 * r) % 3])

    steps.set_tables(mk.only([20000103, 20330301, 20390104, 20391231]), mk.tables_of(
        {s: mk.security(s % 4 + 1, s // 4 + 1, [row(s, r) for r in range(16)]) for s in range(16)}))
    balances = every_balance()
    steps.set_book(20000103, 3, balances)
    mark("every-balance-marked", steps.set_mark, 1)
    mark("every-balance-marked-at-the-end", steps.set_mark, 4)
    mark("return-to-a-mark-that-is-not-set", steps.go_back, 2)
    mark("every-balance-marked-between", steps.set_mark, 2)
    close("every-row-one-byte-over", 35 * EVERY_CLAIM + 1)
    steps.set_book(20000103, 4_294_967_295, [0 if w // 16 % 16 == w % 16 else LIMIT for w in range(rules.words)])
    mark("every-balance-at-the-limit-marked", steps.set_mark, 3)
    close("every-row-at-the-limit", 35 * EVERY_CLAIM)
    mark("every-balance-marked-again", steps.set_mark, 1)
    mark("return-to-every-balance", steps.go_back, 4)
    close("every-row-no-buffer", 0)
    close("every-row-one-byte-short", 35 * EVERY_CLAIM - 1)
    close("every-row", 35 * EVERY_CLAIM)
    mark("return-to-every-balance-at-the-limit", steps.go_back, 3)
    transfer("no-transfer-number-left-after-a-return", 35, 9, 8, 2, 77_777_777, contract=20000103)
    close("every-row-after-a-return", 35 * EVERY_CLAIM)
    mark("return-on-a-later-day", steps.go_back, 1)
    mark("return-to-every-balance-at-the-end", steps.go_back, 4)
    close("every-row-after-all", 35 * EVERY_CLAIM)
    mark("every-balance-marked-between-again", steps.set_mark, 2)
    mark("every-balance-marked-at-the-end-again", steps.set_mark, 4)
    transfer("seven-rows-no-buffer", 0, 9, 8, 2, 77_777_777, contract=20000103)
    transfer("seven-rows-one-byte-short", 244, 9, 8, 2, 77_777_777, contract=20000103)
    transfer("seven-rows", 245, 9, 8, 2, 77_777_777, contract=20000103)
    transfer("seven-rows-one-byte-over", 246, 9, 8, 2, 77_777_777, contract=20000103)
    transfer("no-claims-no-buffer", 0, 9, 8, 2, 77_777_777, contract=20330301)
    transfer("no-tag-no-buffer", 0, 9, 8, 2, 77_777_777)
    close("no-row-no-buffer", 0)


def most_claims():
    """All sixteen rows of a security claimed by one transfer: by interim claims alone, then by seven fail claims too, then one row less."""
    rows = [ref.Row(20240101 + r, 20240201 + r, 20240201 + r, FACTOR - r, r, 0, 0) for r in range(16)]
    steps.set_tables(mk.weekdays(), mk.tables_of({15: mk.security(4, 1, rows)}))
    for name, day in (("no-row-reached", 20240116), ("seven-rows-reached", 20240207), ("eight-rows-reached", 20240208)):
        steps.set_book(day, 0, balances_of())
        for room in (559, 560):
            transfer("%s-%d-bytes" % (name, room), room, 0, 15, 15, 100_000_000, contract=20240101)


def all_waiting():
    """Sixteen rows that wait for the calendar's last open day: a fail claims one of them. Then six rows of the seven are paid, and the first
    or the last of the seven waits."""
    rows = [ref.Row(20240101 + r, 20240201 + r, 20391230, FACTOR - r, r, 0, 0) for r in range(16)]
    paid = [row._replace(payment=20240220) for row in rows]
    steps.set_tables(mk.weekdays(), mk.tables_of({s: mk.security(3, 1, found) for s, found in (
        (0, rows), (1, paid[:9] + rows[9:10] + paid[10:]), (2, paid[:15] + rows[15:]))}))
    for name, security, day, claims in (("nine-interim-behind-one-of-seven", 0, 20240207, 10), ("one-of-sixteen", 0, 20240220, 1),
                                        ("six-paid-behind-one", 1, 20240220, 7), ("one-behind-six-paid", 2, 20240220, 7)):
        steps.set_book(day, 0, balances_of())
        for room in (35 * claims - 1, 35 * claims):
            transfer("%s-%d-bytes" % (name, room), room, 0, 15, security, 100_000_000, contract=20240101)


def date_limits():
    """Limits from 1 to 16 on sixteen rows: all paid, in an MBS and in an annual Treasury, then all waiting. Then the largest number in each
    place and in all, and sixteen numbers."""
    rows = [ref.Row(20240101 + r, 20240201 + r, 20240220, FACTOR - r, r, 0, 0) for r in range(16)]
    late = [row._replace(payment=20391230) for row in rows]
    steps.set_tables(mk.weekdays(), mk.tables_of({s: mk.security(kind, 4, found) for s, (kind, found) in enumerate(
        ((4, rows), (1, rows), (3, late)))}))
    steps.set_book(20240220, 0, balances_of())

    def fail(name, numbers, room, security=0):
        transfer(name, room, 0, 15, security, 100_000_000, contract=20240101, limits=numbers)

    for security, name, before, behind, most in ((0, "mbs", (), (1, 1, 1, 1), 16), (1, "annual", (1, 16, 16, 16), (), 16),
                                                 (2, "late", (), (16, 16, 16, 16), 1)):
        for n in (1, 2, 15, 16):
            for room in (35 * min(n, most) - 1, 35 * min(n, most)):
                fail("%s-limit-%d-%d-bytes" % (name, n, room), (*before, n, *behind), room, security)
    for place in range(5):
        fail("largest-number-in-place-%d" % place, [4_294_967_295 if i == place else 16 for i in range(5)], 560)
    fail("largest-numbers", [4_294_967_295] * 5, 560)
    fail("sixteen-numbers", [1] * 16, 560)


def before_the_memo():
    """Days before the memo of 2023: sixteen rows that wait for the last date, from the first date on until the half year has left them
    behind, and on the last day before the memo and the memo's own, by one transfer each. Then the smallest and the largest limits."""
    early = [ref.Row(20000102 + r, 20000102 + r, 20391231, FACTOR - r, r, 0, 0) for r in range(16)]
    dates = (20220729, 20220730, 20220731, *range(20220801, 20220814))
    late = [row._replace(record=date, beneficiary=date) for row, date in zip(early, dates)]
    steps.set_tables(mk.calendar_of(lambda date: True), mk.tables_of({0: mk.security(3, 1, early), 15: mk.security(4, 4, late)}))

    def fail(name, day, room, security=0, **more):
        steps.set_book(day, 0, balances_of())
        transfer(name, room, 0, 15, security, 100_000_000, contract=20000101, **more)

    for security, day, claims in ((0, 20000101, 0), (0, 20000102, 1), (0, 20000117, 16), (0, 20000702, 16), (0, 20000703, 15),
                                  (0, 20000717, 1), (0, 20000718, 0), (15, 20230129, 16), (15, 20230130, 1)):
        for room in (35 * claims - 1, 35 * claims) if claims else (0,):
            fail("%d-of-sixteen-on-%d-%d-bytes" % (claims, day, room), day, room, security)
    for number in (1, 16, 4_294_967_295):
        fail("sixteen-on-the-last-day-before-the-memo-limit-%d" % number, 20230129, 560, 15, limits=[number] * 5)
    limit_before_the_memo()


def limit_before_the_memo():
    """A loan and a repo at the limit, with the count at its beginning and at its end, before a close over a Record Date; then on the last
    day before the memo and the memo's own."""
    loan, repo = (balances_of((15, 1, 2, LIMIT), start=start) for _, start in rules.kinds)
    for day, count in ((20220728, 0), (20220728, 4_294_967_295), (20230129, 0), (20230130, 0)):
        steps.set_book(day, count, [sum(pair) for pair in zip(loan, repo)])
        for code, accounts in ((1, (1, 2)), (7, (1, 2)), (3, (2, 1)), (9, (2, 1))):
            transfer("code-%d-at-the-limit-on-%d-count-%d" % (code, day, count), 0, *accounts, 15, 100_000_000, code)
        for room in (69, 70) if day == 20220728 else ():
            close("close-of-%d-count-%d-%d-bytes" % (day, count, room), room)


largest_amounts()
last_days()
every_row()
most_claims()
all_waiting()
date_limits()
before_the_memo()
steps.write(sys.argv[2])
