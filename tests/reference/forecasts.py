"""What forecasts among the stored calls show, and forecasts that show all that is wanted of them.

A forecast is a call of make_calls.py with an account, a wanted date and a run of claim records.
"""
LIMIT = 2 ** 53
DAY, NEXT = 20230417, 20230418
ACCOUNTS = (16, 255, 256, 2 ** 32 - 1)
NO_DATES = (0, 19991231, 20230230, 20400101, 2 ** 32 - 1)
NOTICES = (1, 2, 3, 4, 255)
PLACES = ("first", "between", "last")
HEADER = (33, 0, 3, 0)          # length and kind of a claim record
# What makes a whole record bad, and bytes that do.
BAD = {"length": {0: 34}, "high byte of the length": {1: 1}, "kind": {2: 4}, "high byte of the kind": {3: 1}, "equal parties": {6: 1, 7: 1},
       "payer 16": {6: 16}, "payee 16": {7: 16}, "payer 255": {6: 255}, "payee 255": {7: 255}}
PARTIES = ("equal parties", "payer 16", "payee 16")
CUT = (1, 34)                   # the bytes of a last record that is cut
# What forecasts show, with their numbers: facts. A cause of 18 that is named stands alone.
CAUSES = [("account", n) for n in ACCOUNTS] + [("date", n) for n in NO_DATES] + [(name, place) for name in BAD for place in PLACES] + [
    ("cut", n) for n in CUT]
WANTED = {("forecast", 18, *cause) for cause in CAUSES} | {
    ("forecast", 18, name, cause) for name in ("in a notice", "on another date", "of other accounts") for cause in PARTIES} | {
    ("forecast", 18, "before 19", name) for name in ("pay alone", "receive alone", "both")} | {("forecast", 18, "alone in a run")} | {
    ("forecast", 19, name) for name in ("pay alone", "receive alone", "both", "by a cent", "by principal", "by both amounts of a claim",
                                        "by two claims", "past 64 bits")} | {
    ("forecast", 0, name) for name in ("no record", "nothing counts", "pay at the limit", "receive at the limit", "both at the limit",
                                       "pay above receive", "receive above pay", "equal sums", "principal", "another date", "other accounts",
                                       "past the limit on another date", "past the limit of other accounts", "thirty records",
                                       "unknown claim type")} | {
    ("forecast", 0, "account", n) for n in (0, 15)} | {("forecast", 0, "notice", n) for n in NOTICES}


def named(shown) -> set:
    """The names of what holds."""
    return {(name,) for name, holds in shown.items() if holds}


def wrong(record) -> set:
    """What is wrong with a whole record: names of BAD."""
    names = [name for name in BAD if "length" in name or "kind" in name]
    payer, payee = record[6:8]
    return {name for name, value, found in zip(names, HEADER, record) if found != value} | {
        name for name, holds in {"equal parties": payer == payee, "payer %d" % payer: payer > 15, "payee %d" % payee: payee > 15}.items()
        if holds}


def record_facts(call, claim, cause) -> set:
    """What a bad record shows that has a claim's length and kind."""
    return {(name, cause) for name, holds in {
        "in a notice": claim.outcome, "on another date": claim.release != call["wanted"],
        "of other accounts": call["account"] not in (claim.payer, claim.payee)}.items() if holds}


def bad_records(size, parts) -> dict:
    """The bad records of a run by their places, each with what is wrong with it."""
    found = {}
    for k, part in enumerate(parts):
        place = PLACES[0 if k == 0 else 2 if k == len(parts) - 1 else 1]
        if len(part) < size:
            found[k] = {("cut", len(part) if len(part) in CUT else "elsewhere")}
        elif wrong(part):
            found[k] = {(name, place) for name in wrong(part)}
    return found


def bad_facts(ref, call, answer) -> set:
    """What a forecast with 18 shows. answer: its number with other arguments."""
    run, size = call["run"], ref.CLAIM_SIZE
    parts = [run[at:at + size] for at in range(0, len(run), size)]
    bad = bad_records(size, parts)
    arguments = {("account", call["account"])} if call["account"] > 15 else set()
    arguments |= set() if ref.is_date(call["wanted"]) else {("date", call["wanted"])}
    causes = arguments.union(*bad.values())
    facts = causes if len(causes) == 1 else set()
    if bad and not arguments:
        good = dict(call, run=b"".join(part for k, part in enumerate(parts) if k not in bad))
        facts = facts | named({"alone in a run": len(parts) == 1})
        facts |= {("before 19", *name) for name in whose(good, claims_of(ref, good)[1])} if answer(run=good["run"]) == 19 else set()
    if bad and facts & causes:
        number, claim = ref.read_record(ref.CLAIM, parts[min(bad)])
        facts = facts | (record_facts(call, claim, min(causes)[0]) if number == 0 else set())
    return facts


def claims_of(ref, call) -> tuple:
    """The claims of a run without bad records, and those of them that count."""
    claims = [ref.read_record(ref.CLAIM, call["run"][at:])[1] for at in range(0, len(call["run"]), ref.CLAIM_SIZE)]
    return claims, [claim for claim in claims if claim.outcome == 0 and claim.release == call["wanted"]]


def sums(call, claims) -> tuple:
    """What claims have the account pay and receive, as they stand."""
    return tuple(sum(claim.interest + claim.principal for claim in claims if getattr(claim, party) == call["account"])
                 for party in ("payer", "payee"))


def whose(call, counted) -> set:
    """Which sums of the claims that count are past the limit."""
    pay, receive = sums(call, counted)
    return named({"pay alone": pay > LIMIT >= receive, "receive alone": receive > LIMIT >= pay, "both": min(pay, receive) > LIMIT})


def past_facts(call, counted) -> set:
    """What a forecast with 19 shows. counted: the claims that count."""
    pay, receive = sums(call, counted)
    own = [claim for claim in counted if call["account"] in (claim.payer, claim.payee)]
    return whose(call, counted) | named({
        "by a cent": max(pay, receive) == LIMIT + 1,
        "by principal": sum(claim.interest for claim in own) == 0,
        "by both amounts of a claim": len(own) == 1 and max(own[0].interest, own[0].principal) <= LIMIT,
        "by two claims": all(claim.interest + claim.principal <= LIMIT for claim in own),
        "past 64 bits": max(pay, receive) >= 2 ** 64})


def taken_facts(call, claims, counted) -> set:
    """What an accepted forecast shows."""
    pay, receive = sums(call, counted)
    own = [claim for claim in claims if call["account"] in (claim.payer, claim.payee)]
    others = [claim for claim in counted if claim not in own]
    elsewhere = [claim for claim in own if claim.outcome == 0 and claim.release != call["wanted"]]
    facts = named({
        "no record": not claims, "nothing counts": own and not pay + receive, "pay at the limit": pay == LIMIT > receive,
        "receive at the limit": receive == LIMIT > pay, "both at the limit": pay == receive == LIMIT, "pay above receive": pay > receive > 0,
        "receive above pay": receive > pay > 0, "equal sums": pay == receive > 0,
        "principal": any(claim.principal for claim in own if claim in counted), "another date": sum(sums(call, elsewhere)),
        "other accounts": any(claim.interest for claim in others), "thirty records": len(claims) >= 30 and min(pay, receive) > 0,
        "past the limit on another date": max(sums(call, elsewhere)) > LIMIT,
        "past the limit of other accounts": any(claim.interest > LIMIT for claim in others),
        "unknown claim type": any(claim.claim_type not in range(1, 5) for claim in own if claim in counted)})
    facts |= {("account", call["account"])} if min(pay, receive) > 0 else set()
    facts.add(("counting", sum(claim in own for claim in counted)))
    return facts | {("notice", claim.outcome) for claim in own if claim.outcome and claim.release == call["wanted"] and claim.interest}


def facts(ref, call, result, answer) -> set:
    """What a forecast shows. answer: its number with other arguments."""
    if result.number == 18:
        found = bad_facts(ref, call, answer)
    else:
        claims, counted = claims_of(ref, call)
        found = past_facts(call, counted) if result.number else taken_facts(call, claims, counted)
    return {("forecast", result.number, *fact) for fact in found}


def changed(run, k, change) -> bytes:
    """A run with bytes of its record k changed."""
    made = bytearray(run)
    for byte, value in change.items():
        made[35 * k + byte] = value
    return bytes(made)


def others(ref, call):
    """Forecasts that show what is wanted, each of account 1 for DAY where it says nothing else."""
    def claim(payer, payee, interest, principal=0, release=DAY, outcome=0, claim_type=1):
        return ref.record_bytes(ref.Claim(claim_type, outcome, payer, payee, 0, 0, 1, interest, principal, release, 3))

    def asked(*records, account=1, wanted=DAY):
        return dict(call, account=account, wanted=wanted, run=b"".join(records))

    plain = claim(1, 2, 100_000, 5) + claim(2, 1, 40_000) + claim(3, 4, 7) + claim(1, 2, 900, release=NEXT)
    yield asked(plain)
    yield asked(plain, account=2)
    yield asked(claim(1, 2, 10), claim(2, 1, 10))
    yield asked()
    for n in (0, 15):
        yield asked(claim(n, 2, 3), claim(2, n, 5, claim_type=200), account=n)
    for n in NOTICES:
        yield asked(claim(1, 2, 77, outcome=n), claim(1, 2, 1))
    yield asked(claim(1, 2, LIMIT - 1, 1))
    yield asked(claim(2, 1, LIMIT - 1), claim(2, 1, 0, 1))
    yield asked(claim(1, 2, LIMIT), claim(2, 1, LIMIT))
    yield asked(claim(1, 2, LIMIT + 1, release=NEXT), claim(3, 4, LIMIT + 1), claim(1, 2, 5))
    yield asked(claim(1, 2, LIMIT + 1, release=NEXT), claim(1, 2, LIMIT, outcome=1))
    yield asked(*(claim(*parties, n) for n in range(15) for parties in ((1, 2), (2, 1))))
    yield from (asked(claim(1, 2, *cents)) for cents in ((LIMIT + 1, 0), (0, LIMIT + 1), (LIMIT, 1), (2 ** 63, 2 ** 63)))
    yield asked(claim(2, 1, LIMIT), claim(2, 1, 1))
    yield asked(claim(1, 2, LIMIT + 1), claim(2, 1, LIMIT + 1))
    yield from (asked(plain, account=n) for n in ACCOUNTS)
    yield from (asked(plain, wanted=n) for n in NO_DATES)
    yield from (asked(changed(plain, k, change)) for change in BAD.values() for k in (0, 1, 3))
    yield from (asked(plain + plain[:n]) for n in CUT)
    yield asked(claim(1, 1, 5))
    for parties in ((3, 3), (16, 3), (3, 16)):
        yield asked(plain, claim(*parties, 5))
        yield asked(plain, claim(*parties, 5, outcome=1))
        yield asked(plain, claim(*parties, 5, release=NEXT))
    past = claim(1, 2, 2 ** 64 - 1, 2 ** 64 - 1), claim(2, 1, LIMIT + 1)
    for records in (past[:1], past[1:], past):
        yield asked(*records, claim(2, 2, 0))
