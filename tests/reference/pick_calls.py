"""Stored vectors of single calls for the program vectors, by the reference.

    python3 pick_calls.py REFERENCE_FOLDER SEED COUNT FOLDER

makes random calls by the reference's make_calls.py, some of them once more with half a book, with other limits, with other pieces, with
another saved book or with another store, and writes COUNT of them to FOLDER/calls.in, with what they should give in FOLDER/calls.expected (the
format is that of make_calls.py; crates/call_files/src/entries.rt reads it). It takes first calls that show what is wanted (step_files.wanted,
REPOS, LIMITS, PIECES, MEMO, CARRIED and MARKED), always the one that shows most of what is left, then likewise calls that show all answers to
each kind of call and all parts of wrong length, then others in their order, those with claims first; none with a large claim buffer. It
prints what the calls cover, and fails where something that is wanted is missing.
"""
import collections
import os
import sys

import step_files

folder, seed, count, out = sys.argv[1], sys.argv[2], int(sys.argv[3]), sys.argv[4]
ref, mk, cards, make_calls = step_files.reference_modules(folder, "reference", "makebook", "cards", "make_calls")

CALLS = ("open", "transfer", "close", "transfer with lists", "carry over", "set a mark", "go back to a mark", "forecast", "explain",
         "transfer on one of several books", "close on one of several books")
ONE_BOOK, WITH_LISTS, CARRY_OVER, SET_MARK, GO_BACK = (0, 1, 2, 3), 3, 4, 5, 6
NUMBERS = step_files.in_force(step_files.ANSWERS)
# What calls show of the words of repos: repo_facts.
REPOS = {("repos", "cleared", "open")} | {("repos", "half a book", call) for call in CALLS[:4]} | {
    ("repos", fact, call) for fact in ("past the limit", "with itself") for call in CALLS[1:4]}
MORE, FEWER = [9, 8, 4, 3, 2], [6, 5, 2, 1, 1]                          # limits beside the published ones
SECURITIES = ("MBS", "monthly", "quarterly", "semiannual", "annual")    # by the place of their limit
# What calls show of limits: limit_facts. No list gives annual securities fewer dates than the published one.
LIMITS = {("limits", "broken", *limits) for limits in step_files.BROKEN} | {("limits", name) for name in (
    "12 before 4", "3 before 12", "12 with a loan code", "loan code", "monthly above MBS", "one", "sixteen", "cut among more",
    "cut among fewer")} | {("limits", fact, name) for fact in ("its own", "more", "fewer") for name in SECURITIES} - {
    ("limits", "fewer", "annual")} | {("limits", "type", n) for n in range(1, 5)}
DECREASES = (2, 3, 6, 8, 9, 12)
# What calls show of pieces: piece_facts.
PIECES = {("pieces", "broken", *pieces) for pieces in step_files.BROKEN_PIECES} | {("pieces", name) for name in (
    "3 before 13", "12 before 13", "13 before 4", "13 with a loan code", "11 before 14", "14 before 7", "14 before 8", "14 before 10",
    "its own", "with limits", "without limits", "one less", "one more", "an increase of the balance", "the other tracking's balance",
    "the balance the other way", "left off a multiple", "largest")} | {("pieces", "off", code) for code in range(13)} | {
    ("pieces", "cleared", code) for code in DECREASES} | {("pieces", "edit before 14", n) for n in (132, 133, 135, 138, 139)}
# What calls show of days before the memo of 2023 beside what streams show of them too: lists, held loans, and other causes beside 15.
MEMO = {("before the memo", name) for name in (
    "limits not used", "loan claimed at a close", "15 on a held balance", "15 before 8", "15 with an empty tag")} | {
    ("before the memo", "%d before 15" % n) for n in (6, 11, 12, 13, 14, 132, 133, 135, 138, 139)}
# The lengths of what a carry over is lent; balances are the saved ones, words those that it writes.
CARRIED_LENGTHS = {"calendar": 480, "balances": step_files.REPO_AT, "words": 2 * step_files.REPO_AT}
# What a carry over shows, with its number: carried_facts. A cause that is named stands alone. 'Both halves': before the call the words of
# loans and the words of repos are not all zero.
CARRIED = {("carried", 1, name, more) for name in CARRIED_LENGTHS for more in (-1, 1)} | {
    ("carried", 1, "balances", step_files.REPO_AT), ("carried", 1, "words", -step_files.REPO_AT)} | {
    ("carried", *shown) for shown in (
        (1, "before 2"), (1, "before 4"), (2, "alone"), (2, "before 4"), (4, "closed day"), (4, "last open day"), (4, "no date"),
        (4, "past the limit"), (4, "past the limit in the last security"), (4, "with itself"), (4, "first word"), (4, "last word"),
        (0, "no word as it was"), (0, "balances that 4 would refuse"), (0, "largest count"), (0, "count 0"), (0, "before the memo"),
        (0, "loan before the memo"), (0, "loan from the memo on"), (0, "day before the last"), (0, "par in the first security"),
        (0, "par in the last security"), (0, "par in every security"), (0, "largest balance"), (0, "nothing on loan"))} | {
    ("carried", n, "both halves") for n in (0, 1, 2, 4)}
# The lengths of what a call with a mark is lent beside the store, whose length is judged with the mark.
MARK_LENGTHS = {"calendar": 480, "balances": 2 * step_files.REPO_AT}
# What calls with a mark show, with their numbers: mark_facts. A cause that is named stands alone, and a mark that there is not is named where
# all four marks could be returned to. 'Seen': what a call that is not refused would write differs from what stands there. 'Much par': it is
# 20 words or more. 'At its ends': par, or words of the store, at the first and the last places of each half that can hold it.
MARKS = {("marked", call, *shown) for call in ("set", "return") for shown in (
    *((1, name, more) for name in MARK_LENGTHS for more in (-1, 1)), (1, "balances", -step_files.REPO_AT),
    (1, "before 2"), (1, "before 4"), (1, "before 16"), (2, "alone"), (2, "before 4"), (2, "before 16"), (4, "before 16"),
    *((4, name) for name in ("closed day", "last open day", "no date", "past the limit", "past the limit in the last security", "with itself",
                             "first word", "last word")),
    *((16, "mark", mark) for mark in (0, 5, 255, 257, 2 ** 16 + 2, 2 ** 32 - 1)),
    *((16, "store", words - step_files.STORE_WORDS) for words in (step_files.MARK_WORDS, step_files.STORE_WORDS - 1, step_files.STORE_WORDS + 1)),
    *((n, "seen") for n in (1, 2, 4, 16)), (0, "much par"), *((0, "mark", mark) for mark in range(1, 5)),
    *((0, name) for name in ("largest count", "count 0", "before the memo", "from the memo on", "day before the last", "loan and repo",
                             "nothing on loan or repo", "largest balance", "at its ends")))} | {
    ("marked", "set", 16, "store", -step_files.STORE_WORDS)} | {
    ("marked", "set", 0, name) for name in ("over a mark that is set", "over one that is not", "over words at its ends", "beside other marks",
                                            "beside words at its ends")} | {
    ("marked", "return", 0, name) for name in ("to another day and count", "over par at its ends", "beside marks that are refused")} | {
    ("marked", "return", 4, "before 17"), ("marked", "return", 16, "before 17"), ("marked", "return", 17, "seen"), ("marked", "return", 17, "never set")} | {
    ("marked", "return", 17, "flag", n) for n in (0, 2, 257, 2 ** 32 + 1, 2 ** 64 - 1)} | {
    ("marked", "return", 17, "count", n) for n in (2 ** 32, 2 ** 32 + 9, 2 ** 64 - 1)} | {
    ("marked", "return", 17, "day", name) for name in ("closed day", "last open day", "no date", "past 32 bits")} | {
    ("marked", "return", 17, "saved", name) for name in ("past the limit", "past the limit in the last security", "with itself", "first word",
                                                         "last word")}
WANTED = step_files.wanted(NUMBERS) | REPOS | LIMITS | PIECES | MEMO | CARRIED | MARKS
LARGEST_BUFFER = 4096
CANDIDATES = 40 * count
EVERY_DAY = mk.calendar_of(lambda date: True)
LENGTHS = {"calendar": 480, "tables": 1824, "balances": cards.Rules(step_files.CARDS).words, "limits": 5, "pieces": 16}


def wrong_lengths(call) -> set:
    """The parts of wrong length of a call on one book, and by how much they are wrong."""
    lent = {name: call[name] for name in LENGTHS if call["kind"] in ONE_BOOK and call.get(name) is not None}
    return {("length", name, len(part) - LENGTHS[name]) for name, part in lent.items() if len(part) != LENGTHS[name]}


def fitted(words, length) -> list:
    """Words cut to a length, or filled up with zeros."""
    return (words + [0] * length)[:length]


def refused_day(calendar, day) -> str:
    """Why the day of a book is refused."""
    return "no date" if not ref.is_date(day) else "last open day" if day in ref.open_days(calendar) else "closed day"


def bad_balance_facts(saved) -> set:
    """What balances show for which alone a book is refused."""
    large = [w for w, par in enumerate(saved) if par > ref.LARGEST_BALANCE]
    own = [w for w, par in enumerate(saved) if par and w // 16 % 16 == w % 16]
    if large and own:
        return set()
    return {name for name, holds in {
        "past the limit": large, "past the limit in the last security": min(large, default=0) >= len(saved) - 256, "with itself": own,
        "first word": own == [0], "last word": own == [len(saved) - 1]}.items() if holds}


def accepted_carry_facts(call) -> set:
    """What an accepted carry over shows."""
    saved, words = call["balances"], call["words"]
    days, is_old = ref.open_days(call["calendar"]), cards.Rules(step_files.CARDS).old(call["day"])
    return {name for name, holds in {
        "no word as it was": all(a != b for a, b in zip(fitted(saved, len(words)), words)),
        "balances that 4 would refuse": cards.Rules(step_files.CARDS).bad_balances(words),
        "largest count": call["count"] == ref.LARGEST_COUNT, "count 0": call["count"] == 0, "before the memo": is_old,
        "loan before the memo": is_old and any(saved), "loan from the memo on": not is_old and any(saved),
        "day before the last": call["day"] == days[-2], "par in the first security": any(saved[:256]),
        "par in the last security": any(saved[-256:]),
        "par in every security": all(any(saved[at:at + 256]) for at in range(0, len(saved), 256)),
        "largest balance": max(saved) == ref.LARGEST_BALANCE, "nothing on loan": not any(saved)}.items() if holds}


def carried_facts(call, number, answer) -> set:
    """What a carry over shows. answer: its number with other arguments."""
    halves = call["words"][:step_files.REPO_AT], call["words"][step_files.REPO_AT:]
    facts = {("both halves",)} if all(map(any, halves)) else set()
    if number == 1:
        wrong = {name: len(call[name]) - length for name, length in CARRIED_LENGTHS.items() if len(call[name]) != length}
        rest = answer(**{name: fitted(call[name], CARRIED_LENGTHS[name]) for name in wrong})
        facts |= {("before %d" % rest,)} if rest else set(wrong.items()) if len(wrong) == 1 else set()
    if number == 2:
        rest = answer(calendar=[bits & every for bits, every in zip(call["calendar"], EVERY_DAY)])
        facts.add(("before %d" % rest,) if rest else ("alone",))
    if number == 4 and answer(balances=[0] * step_files.REPO_AT) == 0:
        facts |= {(name,) for name in bad_balance_facts(call["balances"])}
    elif number == 4 and not ref.cause_4_balances(call["balances"]):
        facts.add((refused_day(call["calendar"], call["day"]),))
    if number == 0:
        facts |= {(name,) for name in accepted_carry_facts(call)}
    return {("carried", number, *fact) for fact in facts}


def mark_words(words, mark) -> list:
    """The words of a mark in a store."""
    at = step_files.MARK_WORDS * (mark - 1)
    return words[at:at + step_files.MARK_WORDS]


def end_places(words) -> list:
    """The first and the last places that can hold par of each half of balances."""
    return [at + step_files.REPO_AT * half for half in range(len(words) // step_files.REPO_AT) for at in (1, step_files.REPO_AT - 2)]


def moved_facts(call, day, count, balances) -> set:
    """What a call that is taken shows of the book and balances that it saves or brings back."""
    is_old = cards.Rules(step_files.CARDS).old(day)
    return {("mark", call["mark"])} | {(name,) for name, holds in {
        "largest count": count == ref.LARGEST_COUNT, "count 0": count == 0, "before the memo": is_old and any(balances),
        "from the memo on": not is_old and any(balances), "day before the last": day == ref.open_days(call["calendar"])[-2],
        "loan and repo": any(balances[:step_files.REPO_AT]) and any(balances[step_files.REPO_AT:]),
        "nothing on loan or repo": not any(balances), "largest balance": max(balances) == ref.LARGEST_BALANCE,
        "much par": sum(map(bool, balances)) >= 20, "at its ends": all(balances[w] for w in end_places(balances))}.items() if holds}


def set_facts(call, result) -> set:
    """What a mark that is set shows."""
    found, left = (mark_words(words, call["mark"]) for words in (call["words"], result.words))
    at = step_files.MARK_WORDS * (call["mark"] - 1)
    around = call["words"][max(0, at - 1):at] + call["words"][at + len(found):][:1]
    ends = [0, 1, 2] + [3 + w for w in (0, step_files.REPO_AT - 1, step_files.REPO_AT, 2 * step_files.REPO_AT - 1)]
    return moved_facts(call, call["day"], call["count"], call["balances"]) | {(name,) for name, holds in {
        "over a mark that is set": found[0] == 1 and found != left, "over one that is not": found[0] != 1,
        "over words at its ends": all(found[w] not in (0, left[w]) for w in ends),
        "beside other marks": all(any(mark_words(call["words"], mark)) for mark in range(1, 5)),
        "beside words at its ends": all(around)}.items() if holds}


def returned_facts(call, result, answer) -> set:
    """What an accepted return shows."""
    others = [answer(mark=mark) for mark in range(1, 5) if mark != call["mark"]]
    return moved_facts(call, *result.book, result.balances) | {(name,) for name, holds in {
        "to another day and count": call["day"] != result.book.day and call["count"] != result.book.count,
        "over par at its ends": all(call["balances"][w] != result.balances[w] != 0 != call["balances"][w] for w in end_places(result.balances)),
        "beside marks that are refused": others == [17] * 3}.items() if holds}


def refused_mark_facts(call) -> set:
    """What a mark shows that is not returned to: the words for which alone it is refused."""
    words, rules = mark_words(call["words"], call["mark"]), cards.Rules(step_files.CARDS)
    (flag, day, count), saved = words[:3], words[3:]
    causes = {"flag": flag != 1, "count": count > ref.LARGEST_COUNT, "day": ref.cause_4_day(call["calendar"], day),
              "saved": rules.bad_balances(saved)}
    alone = [name for name, holds in causes.items() if holds]
    if not any(words):
        return {("never set",)}
    if alone == ["saved"]:
        return {("saved", name) for name in bad_balance_facts(saved)}
    if alone == ["day"]:
        is_cut = day >= 2 ** 32 and not ref.cause_4_day(call["calendar"], day % 2 ** 32)
        return {("day", "past 32 bits" if is_cut else refused_day(call["calendar"], day))}
    return {(name, value) for name, value in (("flag", flag), ("count", count)) if alone == [name]}


def no_mark_facts(call, answer) -> set:
    """What a call shows that is refused for its mark or for the length of its store."""
    if len(call["words"]) != step_files.STORE_WORDS:
        rest = answer(words=fitted(call["words"], step_files.STORE_WORDS))
        return {("store", len(call["words"]) - step_files.STORE_WORDS)} if rest == 0 else {("before %d" % rest,)}
    rest = {answer(mark=mark) for mark in range(1, 5)}
    return {("mark", call["mark"])} if rest == {0} else {("before 17",)} if rest == {17} else set()


def bad_book_facts(call, answer) -> set:
    """What a call with a mark shows that is refused for the book that it is given."""
    zeros = [0] * len(call["balances"])
    rest = answer(day=ref.open_days(call["calendar"])[0], balances=zeros)
    if rest:
        return {("before %d" % rest,)}
    if answer(balances=zeros) != 4:
        return {(name,) for name in bad_balance_facts(call["balances"])}
    if not cards.Rules(step_files.CARDS).bad_balances(call["balances"]):
        return {(refused_day(call["calendar"], call["day"]),)}
    return set()


def is_seen(call) -> bool:
    """Whether a mark and the book that a call is given have other days, other counts and other par in each half."""
    marks = [mark_words(call["words"], mark) for mark in range(1, 5)]
    mark = marks[call["mark"] - 1 if call["mark"] in range(1, 5) else 0]
    halves = [(words[:step_files.REPO_AT], words[step_files.REPO_AT:]) for words in (mark[3:], call["balances"])]
    return len(mark) > 3 and mark[1] != call["day"] and mark[2] != call["count"] and all(a != b and any(a) and any(b) for a, b in zip(*halves))


def mark_facts(call, result, answer) -> set:
    """What a call with a mark shows. answer: its number with other arguments."""
    number, facts = result.number, {("seen",)} if result.number and is_seen(call) else set()
    if number == 1:
        wrong = {name: len(call[name]) - length for name, length in MARK_LENGTHS.items() if len(call[name]) != length}
        rest = answer(**{name: fitted(call[name], MARK_LENGTHS[name]) for name in wrong})
        facts |= {("before %d" % rest,)} if rest else set(wrong.items()) if len(wrong) == 1 else set()
    if number == 2:
        rest = answer(calendar=[bits & every for bits, every in zip(call["calendar"], EVERY_DAY)])
        facts.add(("before %d" % rest,) if rest else ("alone",))
    if number == 4:
        facts |= bad_book_facts(call, answer)
    if number == 16:
        facts |= no_mark_facts(call, answer)
    if number == 17:
        facts |= refused_mark_facts(call)
    if number == 0:
        facts |= set_facts(call, result) if call["kind"] == SET_MARK else returned_facts(call, result, answer)
    return {("marked", "set" if call["kind"] == SET_MARK else "return", number, *fact) for fact in facts}


def repo_facts(call, result) -> set:
    """What a call shows of the words of repos: half a book refused, repos cleared by an opening, 4 for repos alone."""
    loans, repos = (call["balances"][at:at + step_files.REPO_AT] for at in (0, step_files.REPO_AT))
    facts = set()
    if call["kind"] == 0 and result.number == 0 and any(repos):
        facts.add("cleared")
    if result.number in (1, 4) and make_calls.run(dict(call, balances=loans + [0] * step_files.REPO_AT)).number != result.number:
        if result.number == 4:
            facts.add("past the limit" if max(repos) > ref.LARGEST_BALANCE else "with itself")
        elif not repos:
            facts.add("half a book")
    return {("repos", fact, CALLS[call["kind"]]) for fact in facts}


def claimed(call, transfer, limits) -> list:
    """The claims of a transfer with these limits, whatever room there is."""
    return cards.Rules(step_files.CARDS).transfer_claims(call["calendar"], call["tables"], call["day"], 1, transfer, limits)


def first_waiting(call, transfer, limits):
    """The first row that waits of those that a fail with these limits reaches, before any is dropped."""
    contract = cards.Rules(step_files.CARDS).contract(transfer, call["day"])
    if contract is None:
        return None
    rows = cards.Rules(1).fail_rows(call["tables"], transfer.security, call["day"], contract, limits)
    return next((r for r, row in rows if row.payment > call["day"]), None)


def accepted_facts(call, transfer) -> set:
    """What an accepted transfer shows of its limits: claims other than those that other numbers give."""
    limits, (kind, frequency) = call["limits"], call["tables"][114 * transfer.security:][:2]
    place = 0 if kind in cards.MBS else frequency
    found, published = claimed(call, transfer, limits), claimed(call, transfer, None)

    def differs(number) -> bool:
        return claimed(call, transfer, [number] * 5) != found

    facts = {("limits", name) for name, holds in {
        "loan code": transfer.code and limits != step_files.PUBLISHED,
        "monthly above MBS": limits[1] > limits[0],
        "one": limits[place] == 1 and differs(2),
        "sixteen": limits[place] == 16 and differs(15)}.items() if holds}
    if all(differs(number) for number in limits[:place] + limits[place + 1:]):
        facts.add(("limits", "its own", SECURITIES[place]))
    if found != published:
        facts.add(("limits", "type", kind))
    if len(found) != len(published):
        facts.add(("limits", "more" if len(found) > len(published) else "fewer", SECURITIES[place]))
    if place == 0 and transfer.code == 0 and not cards.Rules(step_files.CARDS).old(call["day"]):
        first = [first_waiting(call, transfer, numbers) for numbers in (limits, None)]
        if None not in first and first[0] != first[1]:
            facts.add(("limits", "cut among more" if first[0] < first[1] else "cut among fewer"))
    return facts


def limit_facts(call, result, answer) -> set:
    """What a transfer with limits shows of them. answer: its number with other arguments."""
    transfer, facts = ref.read_record(ref.TRANSFER, call["message"])[1], set()
    if result.number == 3 and cards.Rules.bad_limits(call["limits"]):
        facts.add(("limits", "3 before 12"))
    if result.number == 12:
        rest = answer(limits=step_files.PUBLISHED)
        facts |= {("limits", "broken", *call["limits"])} if call["limits"] in step_files.BROKEN else set()
        facts |= {("limits", "12 before 4")} if rest == 4 else set()
        facts |= {("limits", "12 with a loan code")} if rest == 0 and transfer.code else set()
    if result.number == 0:
        facts |= accepted_facts(call, transfer)
    return facts


def place_of(transfer, code) -> int:
    """The word of the balances that a code takes from or adds to, with the transfer's accounts and security."""
    lender, borrower = (transfer.receiver, transfer.sender) if code in DECREASES else (transfer.sender, transfer.receiver)
    return (step_files.REPO_AT if code > 6 else 0) + ref.place(transfer.security, lender, borrower)


def off_facts(call, transfer) -> set:
    """What a transfer that is refused for its par shows: its code, and what balance it is like."""
    facts, own, par = {("pieces", "off", transfer.code)}, call["balances"], transfer.par
    other = transfer.code - 6 if transfer.code > 6 else transfer.code + 6
    back = transfer._replace(sender=transfer.receiver, receiver=transfer.sender)
    if transfer.code in DECREASES:
        held = own[place_of(transfer, transfer.code)]
        shown = {"one less": par == held - 1, "one more": held and par == held + 1,
                 "the other tracking's balance": par == own[place_of(transfer, other)],
                 "the balance the other way": par == own[place_of(back, transfer.code)]}
    else:
        shown = {"an increase of the balance": transfer.code and par == own[place_of(transfer, transfer.code)]}
    return facts | {("pieces", name) for name, holds in shown.items() if holds}


def taken_facts(call, transfer, answer) -> set:
    """What an accepted transfer shows of its pieces."""
    pieces, own = call["pieces"], call["balances"]
    piece, facts = pieces[transfer.security], set()
    if transfer.par % piece:
        facts |= {("pieces", "cleared", transfer.code)}
    elif transfer.code in DECREASES and (own[place_of(transfer, transfer.code)] - transfer.par) % piece:
        facts |= {("pieces", "left off a multiple")}
    others = {n for s, n in enumerate(pieces) if s != transfer.security}
    shown = {"its own": all(answer(pieces=[n] * 16) == 14 for n in others), "largest": piece == 1_000_000 and not transfer.par % piece}
    return facts | {("pieces", name) for name, holds in shown.items() if holds}


def piece_facts(call, result, answer) -> set:
    """What a transfer that is lent pieces shows of them. answer: its number with other arguments."""
    number, transfer, rules = result.number, ref.read_record(ref.TRANSFER, call["message"])[1], cards.Rules(step_files.CARDS)
    bad, rest, facts = rules.bad_pieces(call["pieces"]), answer(pieces=step_files.ONES), set()
    if bad and number in (3, 12):
        facts.add(("pieces", "%d before 13" % number))
    if number == 13:
        facts |= {("pieces", "broken", *call["pieces"])} if call["pieces"] in step_files.BROKEN_PIECES else set()
        facts |= {("pieces", "13 before 4")} if rest == 4 else set()
        facts |= {("pieces", "13 with a loan code")} if rest == 0 and transfer.code else set()
    if number == 14:
        facts |= off_facts(call, transfer) | {("pieces", "14 before %d" % rest)}
        facts.add(("pieces", "without limits" if call["limits"] is None else "with limits"))
    if not bad and number in (11, 132, 133, 135, 138, 139) and transfer.par % call["pieces"][transfer.security]:
        facts.add(("pieces", "11 before 14") if number == 11 else ("pieces", "edit before 14", number))
    return facts | (taken_facts(call, transfer, answer) if number == 0 else set())


def shown(call, result) -> set:
    """What a call shows."""
    claims = [(claim.claim_type, claim.outcome, claim.slot) for claim in ref.read_claims(result.buffer, result.claims)]
    facts = {("answer", CALLS[call["kind"]], result.number)} | wrong_lengths(call) | step_files.claim_facts(claims)

    def answer(**other):
        return make_calls.run(dict(call, **other)).number

    if call["kind"] in ONE_BOOK:
        facts |= repo_facts(call, result)
    if call["kind"] in (1, WITH_LISTS):
        facts |= step_files.transfer_facts(ref, cards, call, result, answer)
    if call["kind"] == 2:
        facts |= step_files.close_facts(ref, cards, call, result, answer)
    if call["kind"] == CARRY_OVER:
        facts |= carried_facts(call, result.number, answer)
    if call["kind"] in (SET_MARK, GO_BACK):
        facts |= mark_facts(call, result, answer)
    if call["kind"] == WITH_LISTS:
        facts |= limit_facts(call, result, answer) if call["limits"] is not None else set()
        facts |= piece_facts(call, result, answer)
    if result.claims:
        facts.add(("buffer", CALLS[call["kind"]], min(2, len(result.buffer) - 35 * result.claims)))
    return facts


def not_dividing(par) -> int:
    """The smallest piece that a par is no multiple of."""
    return next(n for n in range(2, 1_000_001) if par % n)


def other_pieces(call, transfer):
    """A transfer with pieces that its par is off, with pieces of all other securities that it is off, and pars about a balance that it takes
    from or adds to, off the piece."""
    def lent(par, **more):
        changed = transfer._replace(par=par, **more)
        message = ref.record_bytes(changed)
        pieces = [not_dividing(par) if s == changed.security else 1 for s in range(16)]
        return dict(call, kind=WITH_LISTS, message=message, pieces=pieces)

    yield lent(transfer.par)
    yield dict(lent(transfer.par), pieces=[1 if s == transfer.security else not_dividing(transfer.par) for s in range(16)])
    held = call["balances"][place_of(transfer, transfer.code)] if transfer.code else 0
    if not 1 < held < 100_000_000:
        return
    for par in (held, held - 1, held + 1):
        yield lent(par)
    yield lent(held, code=transfer.code - 6 if transfer.code > 6 else transfer.code + 6)
    yield lent(held, sender=transfer.receiver, receiver=transfer.sender)


def other_lists(call, transfer):
    """A transfer with more or fewer dates than the published ones, and room for their claims; then with other pieces."""
    for limits in (MORE, FEWER, [16] * 5):
        yield dict(call, kind=WITH_LISTS, limits=limits, pieces=call["pieces"] or step_files.ONES,
                   buffer=step_files.pattern(16 * ref.CLAIM_SIZE))
    yield from other_pieces(call, transfer)


def with_word(words, place, value) -> list:
    """Words with one of them changed."""
    return words[:place] + [value] + words[place + 1:]


def closed_after(day, days) -> int:
    """The first date after a day that is not among the open days, 0 where there is none."""
    return min((date for date in set(ref.open_days(EVERY_DAY)) - set(days) if date > day), default=0)


def refused_carries(call):
    """What is other than in an accepted carry over: one cause of a refusal, then two."""
    saved, found = call["balances"], call["words"]
    days = ref.open_days(call["calendar"])
    closed = closed_after(call["day"], days)
    late = {"calendar": with_word(call["calendar"], 0, 2 ** 31)}
    for name in CARRIED_LENGTHS:
        yield {name: call[name][:-1]}
        yield {name: call[name] + [0]}
    yield {"balances": saved + [0] * step_files.REPO_AT}
    yield {"words": found[:step_files.REPO_AT]}
    yield late
    yield from ({"day": day} for day in (closed, days[-1], 0))
    last = 15 * 256 + 1
    for place, par in ((1, ref.LARGEST_BALANCE + 1), (last, ref.LARGEST_BALANCE + 1), (last, 2 ** 64 - 1), (17, 1), (0, 1), (-1, 1)):
        yield {"balances": with_word(saved, place % step_files.REPO_AT, par)}
    yield late | {"balances": saved[:-1]}
    yield {"words": found[:-1], "day": 0}
    yield late | {"day": 0}


def other_carries(call):
    """An accepted carry over to balances of stamps and to some that 4 would refuse, with other days, counts and saved balances; then refused
    ones."""
    found = [w + 1 if w % 500 == 17 else 0 for w in range(2 * step_files.REPO_AT)]
    good = dict(call, words=found)
    saved, days = call["balances"], ref.open_days(call["calendar"])
    loans = {ref.place(s, s, 15 - s): s + 1 for s in range(16)}
    yield good
    yield dict(good, words=step_files.stamps(2 * step_files.REPO_AT))
    for changes in ({"count": ref.LARGEST_COUNT}, {"count": 0}, {"day": days[0]}, {"day": days[-2]}, {"balances": [0] * len(saved)},
                    {"balances": with_word(saved, 1, ref.LARGEST_BALANCE)}, {"balances": with_word(saved, len(saved) - 2, 1)},
                    {"balances": [loans.get(w, 0) for w in range(len(saved))]}):
        yield good | changes
    yield from (good | changes for changes in refused_carries(good))


def saved_mark(day, count, words) -> list:
    """The words of a mark that is set, with these words of the balances."""
    return [1, day, count] + [words.get(w, 0) for w in range(2 * step_files.REPO_AT)]


def written(words, mark, changes) -> dict:
    """A store with words of a mark changed."""
    changed = list(words)
    for word, value in changes.items():
        changed[step_files.MARK_WORDS * (mark - 1) + word] = value
    return {"words": changed}


def refused_books(call):
    """What is other than in a call with a mark that is taken: the lengths, the calendar or the book; one cause of a refusal, then two."""
    days = ref.open_days(call["calendar"])
    closed = closed_after(days[0], days)
    late = {"calendar": with_word(call["calendar"], 0, 2 ** 31)}
    for name in MARK_LENGTHS:
        yield {name: call[name][:-1]}
        yield {name: call[name] + [0]}
    yield {"balances": call["balances"][:step_files.REPO_AT]}
    yield late
    yield from ({"day": day} for day in (closed, days[-1], 0))
    last = len(call["balances"])
    for place, par in ((1, ref.LARGEST_BALANCE + 1), (last - 2, ref.LARGEST_BALANCE + 1), (17, 1), (0, 1), (last - 1, 1)):
        yield {"balances": with_word(call["balances"], place, par)}
    yield late | {"balances": call["balances"][:-1]}
    yield {"balances": call["balances"][:-1], "day": 0}
    yield {"balances": call["balances"][:-1], "mark": 5}
    yield late | {"day": 0}
    yield late | {"mark": 5}
    yield {"day": closed, "mark": 9}
    yield from ({"mark": mark} for mark in (0, 5, 255, 257, 2 ** 16 + 2, 2 ** 32 - 1))
    yield from ({"mark": 1, "words": (call["words"] + [0])[:words]} for words in (
        0, step_files.MARK_WORDS, step_files.STORE_WORDS - 1, step_files.STORE_WORDS + 1))


def refused_marks(call):
    """What is other than in an accepted return: the words of its mark."""
    words, mark = call["words"], call["mark"]
    days = ref.open_days(call["calendar"])
    closed = closed_after(days[0], days)
    changes = [{0: n} for n in (0, 2, 257, 2 ** 32 + 1, 2 ** 64 - 1)] + [{2: n} for n in (2 ** 32, 2 ** 32 + 9, 2 ** 64 - 1)]
    changes += [{1: n} for n in (closed, days[-1], 0, 2 ** 32 + mark_words(words, mark)[1])]
    last = 3 + 2 * step_files.REPO_AT
    changes += [{3 + 1: ref.LARGEST_BALANCE + 1}, {last - 2: ref.LARGEST_BALANCE + 1}, {3 + 17: 1}, {3: 1}, {last - 1: 1}]
    for change in changes:
        yield written(words, mark, change)
    yield {"words": [0] * len(words)}
    yield {"words": [0] * len(words), "day": closed}
    yield {"words": [0] * len(words), "mark": 5}
    yield {"words": [0] * (len(words) + 1)}


def other_marks(call):
    """A call with a mark that is taken, with four marks in the store and other words at their ends, for each mark and with other books; then
    refused ones."""
    days = ref.open_days(call["calendar"])
    ends = end_places([0] * 2 * step_files.REPO_AT)
    saved = ((days[0], 0, {18: 15_000, 4_114: 7}), (days[-2], ref.LARGEST_COUNT, {w: ref.LARGEST_BALANCE - w for w in ends}),
             (call["day"], 5, {}), (days[len(days) // 2], 9, {1: ref.LARGEST_BALANCE, 4_098: 3}))
    words = [word for book in saved for word in saved_mark(*book)]
    present = {w: 77 + w for w in (*ends, 19, 4_115)}
    good = dict(call, words=words, count=3, mark=1, balances=[present.get(w, 0) for w in range(2 * step_files.REPO_AT)])
    for mark in range(1, 5):
        yield dict(good, mark=mark)
    yield dict(good, mark=2, day=days[0])
    if call["kind"] == SET_MARK:
        for day, count, pars in saved:
            yield dict(good, mark=3, day=day, count=count, balances=[pars.get(w, 0) for w in range(len(good["balances"]))])
        yield dict(good, mark=2, words=[w + 1 if w % 4_097 in (0, 1, 2, 3, 4_096) or w % step_files.MARK_WORDS < 4 else 0
                                        for w in range(len(words))])
    else:
        yield dict(good, mark=2, words=[word for mark, book in enumerate(saved) for word in (
            saved_mark(*book) if mark == 1 else [mark] + saved_mark(*book)[1:] if mark else with_word(saved_mark(*book), 1, 0))])
        yield from (good | changes for changes in refused_marks(good))
    yield from (good | changes for changes in refused_books(good))


def once_more(call, is_first):
    """An accepted call with other arguments; of the carry overs those with par on loan, of the calls with a mark the first of its kind."""
    if call["kind"] in (1, WITH_LISTS):
        yield from other_lists(call, ref.read_record(ref.TRANSFER, call["message"])[1])
    if call["kind"] == CARRY_OVER and any(call["balances"]):
        yield from other_carries(call)
    if call["kind"] in (SET_MARK, GO_BACK) and is_first:
        yield from other_marks(call)


def argument_facts(call, result) -> set:
    """What a call shows of limits, of pieces, of a saved book and of a mark."""
    return {fact for fact in shown(call, result) if fact[0] in ("limits", "pieces", "carried", "marked")}


def candidates():
    """Random calls. Once more come the first accepted one of each kind on one book with half a book, the first accepted transfer with lists
    with lists that break one rule, and accepted calls with other arguments that show something of them that none of these before them
    shows."""
    accepted, facts = set(), set()
    for i in range(CANDIDATES):
        call = make_calls.call_of(seed, i, step_files.CARDS)
        kind = call["kind"]
        yield call
        if make_calls.run(call).number:
            continue
        is_first = kind not in accepted
        accepted.add(kind)
        if kind in ONE_BOOK and is_first:
            yield dict(call, balances=call["balances"][:step_files.REPO_AT])
            for name, lists in (("limits", step_files.BROKEN), ("pieces", step_files.BROKEN_PIECES)) if kind == WITH_LISTS else ():
                yield from (dict(call, **{name: numbers}) for numbers in lists)
        for again in once_more(call, is_first):
            more = argument_facts(again, make_calls.run(again)) - facts
            facts |= more
            if more:
                yield again


def wanted_parts(facts) -> set:
    """What is wanted of these facts."""
    return step_files.parts_of(facts) & WANTED


def picked() -> list:
    """(place, call, result, what it shows), in the order of their places."""
    entries = []
    for i, call in enumerate(candidates()):
        if len(call.get("buffer", b"")) <= LARGEST_BUFFER:
            result = make_calls.run(call)
            entries.append((i, call, result, shown(call, result)))
    first = step_files.covering(entries, wanted_parts)
    covered = set().union(*(facts for _, _, _, facts in first))
    first += step_files.covering(entries, lambda facts: facts - covered)
    places = {entry[0] for entry in first}
    others = sorted((entry for entry in entries if entry[0] not in places), key=lambda entry: (not entry[2].claims, entry[0]))
    return sorted((first + others)[:count], key=lambda entry: entry[0])


calls = picked()
os.makedirs(out, exist_ok=True)
with open(os.path.join(out, "calls.in"), "wb") as file:
    file.write(b"".join(make_calls.entry_bytes(call) for _, call, _, _ in calls))
with open(os.path.join(out, "calls.expected"), "wb") as file:
    file.write(b"".join(make_calls.expected_bytes(call, result) for _, call, result, _ in calls))
covered = collections.Counter(fact for _, _, _, facts in calls for fact in facts)
for fact, times in sorted(covered.items(), key=str):
    print(times, *fact)
missing = sorted(WANTED - step_files.parts_of(covered), key=str)
print("missing:", *(missing or ["nothing"]))
sys.exit(1 if missing else 0)
