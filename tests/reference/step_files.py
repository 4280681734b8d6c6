"""The number of cards in force, what the stored data have to cover with it, the reference's direct calls on a book, and files of steps for
the programs extremes and case_runs with what the reference answers to them.

The format of a file of steps stands in crates/call_files/src/steps.rt.
"""
import importlib
import os
import struct
import sys

CARDS = 9                       # the last of document 02's cards in force that changes an answer
# The kinds of steps: the calls, as in files of calls, and what sets calendar and tables, the book, or words of the store.
OPEN, TRANSFER, CLOSE, LENT_TRANSFER, CARRY_OVER, SET_MARK, GO_BACK = range(7)
TABLES, BOOK, STORE = 128, 129, 130
MODULUS = 4294967291
REPO_AT = 4096                  # the first word of repos, and how many balances a book had before them
MARK_WORDS = 8195               # how many words a mark has
STORE_WORDS = 4 * MARK_WORDS    # how many words a store has
# Date limits: the published ones, and lists that break one rule each: the length, the range, the order. In their order only MBS and annual
# can be 0 alone, and only MBS and monthly above 16.
PUBLISHED = [7, 6, 3, 2, 1]
BROKEN = ([], [7, 6, 3, 2], [7, 6, 3, 2, 1, 1], [0, 6, 3, 2, 1], [7, 6, 3, 2, 0], [17, 6, 3, 2, 1], [7, 17, 3, 2, 1], [7, 6, 7, 2, 1],
          [7, 6, 3, 4, 1], [7, 6, 3, 2, 3])
# Pieces: those of a transfer that is lent no others, and lists that break one rule each: the length, the range in front, within and at the
# end.
ONES = [1] * 16
BROKEN_PIECES = ([], [1] * 15, [1] * 17, [0] + [1] * 15, [1] * 8 + [0] + [1] * 7, [1] * 15 + [0], [1_000_001] + [1] * 15,
                 [1] * 15 + [2 ** 32 - 1])

# The answers, and what else the stored data show, each with the card that brings it; 0 is document 01.
ANSWERS = {n: 0 for n in (*range(12), 132, 133, 135, 138, 139)} | {
    12: 5, 13: 6, 14: 6, 15: 7, 16: 9, 17: 9, 18: 10, 19: 10, 20: 14, 21: 14}
CLAIM_TYPES = {1: 0, 2: 1, 3: 0, 4: 3}
# A claim's type, outcome and slot.
CLAIMS = {("claim", kind, *rest): card for kind, card in CLAIM_TYPES.items() for rest in ((0, 1), (0, 3), (1, 0), (3, 0))} | {
    ("claim", 1, 0, 2): 0, ("claim", 3, 2, 0): 0, ("claim", 4, 2, 0): 3}
# The types of two claims of one call.
TOGETHER = {("together", 1, 1): 0, ("together", 1, 2): 1, ("together", 2, 2): 1, ("together", 3, 3): 0, ("together", 3, 4): 3,
            ("together", 4, 4): 3}
# What a failed transfer shows of rows that wait. A row waits where its Payment Date is after the day S; C is the Contract Date.
WAITING = {("waiting", name): 2 for name in (
    "dropped", "paid kept behind", "paid on S", "another up to C", "no room for another", "types 1 and 2 uncut")}
# Loans and repos: an edit of the tag; no claim with a tag with which code 0 would give claims; an answer to an increase or a decrease that
# would be another one on the other's balance.
TRACKINGS = {"loan": 0, "repo": 3}
TRACKED = {("edit", kind, n): card for kind, card in TRACKINGS.items() for n in (132, 133, 135, 138, 139)} | {
    ("no claim", kind): card for kind, card in TRACKINGS.items()} | {
    ("apart", kind, *answer): 3 for kind in TRACKINGS for answer in (("increase", 0), ("increase", 8), ("decrease", 0), ("decrease", 7))}
# The codes of accepted transfers, and the lowest code that is refused for itself.
CODES = {("code", n): 3 if n > 6 else 0 for n in range(13)} | {("refused code", 13): 3}
# Closes: a loan and a repo of the same two accounts in one row; a repo before a loan of a later row; a loan before a repo of an earlier
# lender; room for the loans but not for the repos.
CLOSES = {("close", name): 3 for name in ("same two accounts", "row by row", "loans first", "room for loans alone")}
# Days before the memo of 2023 and days from it on. X is the same day six months earlier. Before the memo: rows that are claimed and rows
# that are not, 15, and empty tags that are taken for the day; from it on: an empty tag that is refused, and claims that the rule of the
# days before would not give.
MEMO = {("before the memo", name): 7 for name in (
    "fail claim", "more than seven", "two that wait", "row on X", "row on X in a shorter month", "row before X", "X before 2000",
    "types 1 and 2", "15 with an increase", "15 with a decrease", "15 before 7", "empty tag with code 0", "empty tag with a repo code",
    "empty tag with class 1", "empty tag and no fail claim", "empty tag and an interim claim", "repo claimed at a close")} | {
    ("from the memo on", name): 7 for name in ("fail claim", "on its first day", "C before the memo", "empty tag")}
SHOWN = CLAIMS | TOGETHER | WAITING | TRACKED | CODES | CLOSES | MEMO


def in_force(table) -> set:
    """What document 01 and the cards in force bring."""
    return {n for n, card in table.items() if card <= CARDS}


def wanted(numbers) -> set:
    """What stored data have to show: these answers, and what is in force of the rest."""
    return {("answer", n) for n in numbers} | in_force(SHOWN)


def parts_of(facts) -> set:
    """Facts in the form in which wanted asks for them: answers to whatever call."""
    return {("answer", fact[-1]) if fact[0] == "answer" else fact for fact in facts}


def covering(entries, part, size=lambda entry: 1) -> list:
    """Entries that together show what all of them show of this part of the facts, always the one that shows most of what is left for its
    size. An entry begins with its place and ends with what it shows."""
    parts = {entry[0]: part(entry[-1]) for entry in entries}
    taken, left = [], set().union(*parts.values())
    while left:
        taken.append(max(entries, key=lambda entry: (len(parts[entry[0]] & left) / size(entry), -entry[0])))
        left -= parts[taken[-1][0]]
    return taken


def claim_facts(claims) -> set:
    """What the claims of a call show: each its type, outcome and slot, and two of them their types."""
    types = [claim[0] for claim in claims]
    pairs = {(a, b) for a in set(types) for b in set(types) if a < b or a == b and types.count(a) > 1}
    return {("claim", *claim) for claim in claims} | {("together", *pair) for pair in pairs}


def record_facts(output: bytes) -> set:
    """What the records that claimrun writes show: the answers, and the claims before each."""
    facts, claims, at = set(), [], 0
    while at < len(output):
        following, kind = struct.unpack_from("<HH", output, at)
        if kind == 3:
            claims.append((output[at + 4], output[at + 5], output[at + 34]))
        else:
            facts |= claim_facts(claims) | {("answer", *struct.unpack_from("<H", output, at + 4))}
            claims = []
        at += 2 + following
    return facts


def waiting_facts(cards, tables, day: int, transfer, limits=None) -> set:
    """What an accepted transfer shows of rows that wait; with card 1 alone none is dropped."""
    rules, uncut = cards.Rules(CARDS), cards.Rules(1)
    contract = rules.contract(transfer, day)
    if transfer.code or contract is None or rules.old(day):
        return set()

    def rows(by, after, numbers=limits):
        return [row for _, row in by.fail_rows(tables, transfer.security, day, after, numbers)]

    claimed, recent, reached = rows(rules, contract), rows(uncut, 0), rows(uncut, 0, [16] * 5)
    waiting = [row for row in claimed if row.payment > day]
    dropped = [row for row in recent if contract < row.beneficiary and row not in claimed]
    if tables[114 * transfer.security] not in cards.MBS:
        shown = {"types 1 and 2 uncut": len(waiting) > 1}
    else:
        shown = {"dropped": dropped,
                 "paid kept behind": waiting and any(row.payment <= day for row in claimed[claimed.index(waiting[0]):]),
                 "paid on S": waiting and any(row.payment == day for row in claimed),
                 "another up to C": waiting and any(row.payment > day for row in recent if row.beneficiary <= contract),
                 "no room for another": dropped and any(contract < row.beneficiary for row in reached[:-len(recent)])}
    return {("waiting", name) for name, holds in shown.items() if holds}


def rows_since(cards, tables, day: int, security: int, contract: int) -> list:
    """The rows with a Beneficiary Date after the Contract Date and not after the day."""
    return [row for _, row in cards.Rules(1).fail_rows(tables, security, day, contract, [16] * 5)]


def half_year_facts(cards, call, transfer) -> set:
    """What an accepted transfer with a tag and without a code shows of the half year before its day."""
    rules, tables, day, limits = cards.Rules(CARDS), call["tables"], call["day"], call.get("limits")
    contract, first = rules.contract(transfer, day), cards.six_months_before(day)
    claimed = [row for _, row in rules.fail_rows(tables, transfer.security, day, contract, limits)]
    since = rows_since(cards, tables, day, transfer.security, contract)
    is_mbs = tables[114 * transfer.security] in cards.MBS
    half_year = [row for row in since if first <= row.beneficiary]
    if not rules.old(day):
        differs = claimed != (half_year if is_mbs else [])
        shown = {"fail claim": claimed, "on its first day": differs and day == cards.MEMO_DAY,
                 "C before the memo": differs and contract < cards.MEMO_DAY}
        return {("from the memo on", name) for name, holds in shown.items() if holds}
    on_first = any(row.beneficiary == first for row in claimed)
    shown = {"fail claim": claimed,
             "more than seven": len(claimed) > 7,
             "two that wait": sum(row.payment > day for row in claimed) > 1,
             "row on X": on_first,
             "row on X in a shorter month": on_first and first % 100 < day % 100,
             "row before X": is_mbs and half_year != since,
             "X before 2000": claimed and first < 20000101,
             "types 1 and 2": not is_mbs and half_year,
             "limits not used": limits and len(claimed) > limits[0]}
    return {("before the memo", name) for name, holds in shown.items() if holds}


def empty_tag_facts(cards, call, result, transfer) -> set:
    """What a transfer with an empty tag shows: taken for the day before the memo, no date from it on."""
    rules, day = cards.Rules(CARDS), call["day"]
    if not rules.old(day):
        return {("from the memo on", "empty tag")} if result.number == 135 else set()
    if result.number == 15:
        return {("before the memo", "15 with an empty tag")}
    if result.number:
        return set()
    earlier = transfer.code == 0 and rules.fail_rows(call["tables"], transfer.security, day, 0, None)
    shown = {"with code 0": transfer.code == 0, "with a repo code": transfer.code, "with class 1": transfer.klass,
             "and no fail claim": earlier, "and an interim claim": result.claims}
    return {("before the memo", "empty tag " + name) for name, holds in shown.items() if holds}


def no_lending_facts(ref, cards, call, result, transfer) -> set:
    """What a transfer with a code from 1 to 6 on a day before the memo shows: 15, or an answer that comes before it."""
    if result.number != 15:
        return {("before the memo", "%d before 15" % result.number)}
    word, step = cards.Rules(CARDS).move(transfer)
    held, par = call["balances"][word], transfer.par
    shown = {"with an increase": step > 0, "with a decrease": step < 0, "before 7": step < 0 and held < par,
             "before 8": step > 0 and held + par > ref.LARGEST_BALANCE, "on a held balance": step < 0 and par <= held}
    return {("before the memo", "15 " + name) for name, holds in shown.items() if holds}


def memo_facts(ref, cards, call, result, transfer) -> set:
    """What a transfer shows of the days before the memo and of those from it on."""
    rules, facts = cards.Rules(CARDS), set()
    if rules.tag(transfer) == b"":
        facts |= empty_tag_facts(cards, call, result, transfer)
    if rules.old(call["day"]) and 1 <= transfer.code <= 6:
        facts |= no_lending_facts(ref, cards, call, result, transfer)
    if result.number == 0 and transfer.code == 0 and rules.contract(transfer, call["day"]) is not None:
        facts |= half_year_facts(cards, call, transfer)
    return facts


def transfer_facts(ref, cards, call, result, answer) -> set:
    """What a transfer shows. call: its arguments by name; answer: its number with some of them changed."""
    unread, transfer = ref.read_record(ref.TRANSFER, call["message"])
    if unread or result.number in range(1, 6):
        return set()
    rules, facts = cards.Rules(CARDS), memo_facts(ref, cards, call, result, transfer)
    kind = "repo" if transfer.code > 6 else "loan"

    def with_code(code) -> bytes:
        return ref.record_bytes(transfer._replace(code=code))

    if result.number == 0:
        facts |= {("code", transfer.code)} | waiting_facts(cards, call["tables"], call["day"], transfer, call.get("limits"))
        if transfer.code and rules.transfer_claims(call["calendar"], call["tables"], call["day"], 1, transfer._replace(code=0),
                                                   call.get("limits")):
            facts.add(("no claim", kind))
    if result.number == 6 and transfer.code == rules.last_code + 1 and answer(message=with_code(rules.last_code)) != 6:
        facts.add(("refused code", transfer.code))
    if result.number > 100 and transfer.code:
        facts.add(("edit", kind, result.number))
    if result.number in (0, 7, 8) and transfer.code:
        words = call["balances"]
        if answer(balances=words[REPO_AT:] + words[:REPO_AT]) != result.number:
            facts.add(("apart", kind, "increase" if rules.move(transfer)[1] > 0 else "decrease", result.number))
    return facts


def close_facts(ref, cards, call, result, answer) -> set:
    """What a close shows of loans beside repos, with arguments as of transfer_facts."""
    claims = ref.read_claims(result.buffer, result.claims)
    loans, repos = ([claim for claim in claims if claim.claim_type == kind] for kind in (cards.LENDING, cards.REPO))

    def places(found) -> set:
        return {(claim.security, claim.row, claim.payee, claim.payer) for claim in found}

    def above(key, value) -> bool:
        """Whether a loan has a larger value than a repo with the same key."""
        largest = {key(claim): value(claim) for claim in sorted(loans, key=value)}
        return any(value(claim) < largest.get(key(claim), 0) for claim in repos)

    shown = {"same two accounts": places(loans) & places(repos),
             "row by row": above(lambda claim: claim.security, lambda claim: claim.row),
             "loans first": above(lambda claim: (claim.security, claim.row), lambda claim: claim.payee),
             "room for loans alone": result.number == 10 and answer(balances=call["balances"][:REPO_AT] + [0] * REPO_AT) == 0}
    before = cards.Rules(CARDS).old(call["day"])
    claimed = {"loan": loans, "repo": repos}
    return {("close", name) for name, holds in shown.items() if holds} | {
        ("before the memo", kind + " claimed at a close") for kind, found in claimed.items() if before and found}


def reference_modules(folder, *names) -> list:
    """The modules of these names of a folder that holds the reference, and of its folder vectors."""
    sys.dont_write_bytecode = True
    sys.path[:0] = [folder, os.path.join(folder, "vectors")]
    return [importlib.import_module(name) for name in names]


def pattern(length: int) -> bytes:
    """A claim buffer before a call."""
    return bytes(i % 251 for i in range(length))


def stamps(length: int) -> list:
    """The balances that a step's carry over is lent: each word holds its place and one more."""
    return list(range(1, length + 1))


def balance_bytes(words) -> bytes:
    """Balances: how many, how many of them are not zero, and the place and the par of each of these."""
    pairs = [(w, par) for w, par in enumerate(words) if par]
    return struct.pack("<II", len(words), len(pairs)) + b"".join(struct.pack("<IQ", w, par) for w, par in pairs)


def list_bytes(numbers) -> bytes:
    """A list that a transfer is lent; None is the form without limits."""
    return struct.pack("<I", 2 ** 32 - 1) if numbers is None else struct.pack("<I%dI" % len(numbers), len(numbers), *numbers)


def checksum(numbers) -> int:
    total = 0
    for n in numbers:
        total = (total * 257 + n % MODULUS + 1) % MODULUS
    return total


class Direct:
    """The reference's direct calls, each on the book and balances that the last one left, and what they show."""

    def __init__(self, ref, cards):
        self.ref, self.cards, self.rules = ref, cards, cards.Rules(CARDS)
        self.facts = set()

    def open(self, calendar, tables, day):
        return self.done(self.rules.open(calendar, tables, day, [0] * self.rules.words)).number

    def transfer(self, *arguments):
        return self.made(self.rules.transfer, transfer_facts, *arguments)

    def close(self, *arguments):
        return self.made(self.rules.close, close_facts, *arguments)

    def made(self, form, facts, calendar, tables, message, buffer):
        call = dict(calendar=calendar, tables=tables, book=self.book, balances=self.balances, message=message, buffer=buffer)
        result = form(**call)
        self.facts |= facts(self.ref, self.cards, call | {"day": self.book.day}, result, lambda **other: form(**(call | other)).number)
        return self.done(result)

    def done(self, result):
        self.book, self.balances = result.book, result.balances
        return result


class Steps:
    """The steps of a file, run by the reference as they are added: each on the book, balances and store that the last one left. Behind the
    store stands one word more."""

    def __init__(self, ref, rules):
        """The rules have the direct calls."""
        self.ref, self.rules = ref, rules
        self.steps = []
        self.calendar, self.tables = [0] * 480, [0] * 1824
        self.book, self.balances = ref.Book(0, 0), [0] * rules.words
        self.store = [0] * (STORE_WORDS + 1)

    def add(self, kind: int, name: str, message: bytes, room: int = 0, lent: bytes = b"") -> None:
        """A step, with the bytes of the lists that a call of its kind alone is lent behind it."""
        self.steps.append(struct.pack("<BB", kind, len(name)) + name.encode()
                          + struct.pack("<I", len(message)) + message + struct.pack("<I", room) + lent)

    def set_tables(self, calendar, tables) -> None:
        """No step where they stand already."""
        if (self.calendar, self.tables) != (list(calendar), list(tables)):
            self.calendar, self.tables = list(calendar), list(tables)
            self.add(TABLES, "", struct.pack("<480I1824I", *calendar, *tables))

    def set_book(self, day: int, count: int, balances) -> None:
        self.book, self.balances = self.ref.Book(day, count), list(balances)
        self.add(BOOK, "", struct.pack("<II", day, count) + balance_bytes(balances)[4:])

    def set_store(self, words: dict) -> None:
        for place, value in words.items():
            self.store[place] = value
        self.add(STORE, "", struct.pack("<I", len(words)) + b"".join(struct.pack("<IQ", *word) for word in words.items()))

    def done(self, result):
        self.book, self.balances = result.book, result.balances
        return result

    def open(self, name: str, day: int):
        """A refused opening leaves the book that was there."""
        self.add(OPEN, name, struct.pack("<I", day))
        result = self.rules.open(self.calendar, self.tables, day, self.balances)
        return result if result.number else self.done(result)

    def transfer(self, name: str, message: bytes, room: int, limits=None, pieces=None):
        """A transfer; with neither limits nor pieces it is lent ones."""
        if limits is None and pieces is None:
            self.add(TRANSFER, name, message, room)
        else:
            self.add(LENT_TRANSFER, name, message, room, list_bytes(limits) + list_bytes(ONES if pieces is None else pieces))
        return self.done(self.rules.transfer(self.calendar, self.tables, self.book, self.balances, message, pattern(room), limits=limits,
                                             pieces=pieces))

    def close(self, name: str, message: bytes, room: int):
        self.add(CLOSE, name, message, room)
        return self.done(self.rules.close(self.calendar, self.tables, self.book, self.balances, message, pattern(room)))

    def carry_over(self, name: str, day: int, count: int, saved, calendar_words: int = 480, lent: int = 2 * REPO_AT):
        """A saved book carried over with this many words of the calendar to this many balances, which hold stamps. Refused, the balances
        are what differs from the stamps then."""
        self.add(CARRY_OVER, name, struct.pack("<IIII", day, count, calendar_words, lent) + balance_bytes(saved))
        found = stamps(self.rules.words)
        number, book, left = self.rules.carry_over(self.calendar[:calendar_words], self.ref.Book(day, count), saved, found[:lent])
        left += found[lent:]
        balances = [a ^ b for a, b in zip(left, found)] if number else left
        return self.done(self.ref.Result(number, book, 0, balances, b""))

    def set_mark(self, name: str, mark: int, calendar_words: int = 480, lent: int = 2 * REPO_AT, store_words: int = STORE_WORDS):
        """A mark set with this many words of the calendar, balances and words of the store."""
        self.add(SET_MARK, name, struct.pack("<IIII", mark, calendar_words, lent, store_words))
        number, self.store[:store_words] = self.rules.set_mark(self.calendar[:calendar_words], self.book, self.balances[:lent], mark,
                                                               self.store[:store_words])
        return self.ref.Result(number, self.book, 0, self.balances, b"")

    def go_back(self, name: str, mark: int, calendar_words: int = 480, lent: int = 2 * REPO_AT, store_words: int = STORE_WORDS):
        """A return to a mark, lent likewise."""
        self.add(GO_BACK, name, struct.pack("<IIII", mark, calendar_words, lent, store_words))
        number, book, balances = self.rules.go_back(self.calendar[:calendar_words], self.book, self.balances[:lent], mark,
                                                    self.store[:store_words])
        return self.done(self.ref.Result(number, book, 0, balances + self.balances[lent:], b""))

    def write(self, path: str) -> None:
        with open(path, "wb") as file:
            file.write(struct.pack("<I", len(self.steps)) + b"".join(self.steps))
