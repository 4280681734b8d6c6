"""The board: two transfers side by side on one page, with time lines and a fold over who owes what."""
import datetime
import tempfile
from html import escape

from . import book as books
from . import claims, dates, factors, layout, messages, running, timeline
from .errors import Fault
from .sources import sample

TITLE = "Which of these two transfers owes money?"
DAYS_BEFORE = datetime.timedelta(days=40)
DAYS_AFTER = datetime.timedelta(days=60)
KEYS = ("title", "settlement_day", "rows") + messages.TRANSFER_KEYS

STYLE = """
  :root { color-scheme: light dark; --ink: #111; --paper: #fff; --soft: #444; --line: #777; --hatch: #333; }
  * { box-sizing: border-box; }
  body { font: 16px/1.5 system-ui, "Segoe UI", "Liberation Sans", Arial, sans-serif; color: var(--ink); background: var(--paper);
         max-width: 70rem; margin: 0 auto; padding: 1.5rem; overflow-wrap: anywhere; }
  h1 { font-size: 1.7rem; line-height: 1.25; margin: 0 0 .5rem; }
  h2 { font-size: 1.2rem; line-height: 1.3; margin: 0 0 .5rem; }
  p { margin: 0 0 .75rem; }
  .pair { display: grid; grid-template-columns: 1fr 1fr; gap: 0 2rem; }
  .pair > * { min-width: 0; }
  article { border-top: 3px solid var(--ink); padding-top: .75rem; display: grid; grid-row: span 4;
            grid-template-rows: subgrid; row-gap: 0; align-items: start; }
  dl { display: grid; grid-template-columns: max-content 1fr; gap: .1rem .9rem; margin: 0 0 1rem; }
  dt { color: var(--soft); }
  dd { margin: 0; font-weight: 600; }
  svg { display: block; width: 100%; max-width: 30rem; height: auto; font: 13px system-ui, "Segoe UI",
        "Liberation Sans", Arial, sans-serif; }
  svg text { fill: var(--ink); }
  svg .marked { font-weight: 700; }
  svg .closed { font-style: italic; fill: var(--soft); }
  svg .day { fill: var(--paper); stroke: var(--line); stroke-width: .8; }
  svg .hatch { stroke: var(--hatch); stroke-width: 1.6; }
  svg .solid { fill: var(--ink); stroke: var(--ink); }
  svg .hollow { fill: var(--paper); stroke: var(--ink); stroke-width: 1.8; stroke-linejoin: round; }
  svg .break { fill: none; stroke: var(--line); stroke-width: 1.4; stroke-dasharray: 3 3; }
  .answers { margin-top: 1.5rem; align-items: start; }
  details { border: 2px solid var(--ink); border-radius: .3rem; padding: .6rem .9rem; }
  summary { cursor: pointer; font-weight: 700; }
  details[open] summary { margin-bottom: .5rem; }
  details ul { margin: 0 0 .75rem; padding-left: 1.2rem; }
  table { border-collapse: collapse; margin: 0 0 .75rem; font-size: .85rem; width: 100%; overflow-wrap: normal; }
  th, td { border: 1px solid var(--line); padding: .15rem .3rem; text-align: left; font-weight: 400; }
  thead th { font-weight: 600; }
  td.amount { text-align: right; }
  .paper { display: none; }
  footer { margin-top: 1.5rem; font-size: .9rem; color: var(--soft); }
  @media (max-width: 60rem) { .answers { grid-template-columns: 1fr; row-gap: 1rem; } }
  @media (max-width: 40rem) { .pair { grid-template-columns: 1fr; row-gap: 1rem; } td, th { overflow-wrap: anywhere; } }
  @media (prefers-color-scheme: dark) {
    :root { --ink: #f2f2f2; --paper: #161616; --soft: #c4c4c4; --line: #a0a0a0; --hatch: #d0d0d0; }
  }
  @media (forced-colors: active) {
    :root { --ink: CanvasText; --paper: Canvas; --soft: CanvasText; --line: CanvasText; --hatch: CanvasText; }
    svg { forced-color-adjust: none; }
  }
  @media print {
    @page { margin: 12mm; }
    :root { color-scheme: light; --ink: #111; --paper: #fff; --soft: #444; --line: #777; --hatch: #333; }
    body { font-size: 10.5pt; max-width: none; padding: 0; }
    h1 { font-size: 15pt; }
    h2 { font-size: 12pt; }
    dl { margin-bottom: .5rem; }
    main > .pair:first-child { break-inside: avoid; }
    article { break-inside: avoid; }
    article svg { width: auto; max-width: 100%; max-height: 142mm; }
    .pair { column-gap: 1.2rem; grid-template-columns: 1fr 1fr; }
    .paper { display: block; margin: .5rem 0 0; border-bottom: 1px solid #111; height: 2.2em; }
    details:not([open]) { display: none; }
    details { break-inside: avoid; }
    details svg { max-height: 120mm; width: auto; max-width: 100%; }
    .answers:not(:has(details[open])), body:not(:has(details[open])) footer { display: none; }
    .answers { break-before: page; margin-top: 0; }
  }
"""
COLUMNS = ("coupon", "interest", "principal", "release", "time")
AMOUNTS = ("interest", "principal")


def told(number):
    """A date's number as the page writes it."""
    return timeline.day_words(dates.of_number(number))


class Side:
    """One of the two transfers: what the source says of it and what claimrun wrote for it."""

    def __init__(self, fields, book, number, found):
        """Judges the source; the rows that it names only where all else is right."""
        fields.known(found, *KEYS)
        self.fields, self.book, self.number = fields, book, number
        self.title = found.take(fields.text, "title", "Transfer %d" % number)
        self.transfer = messages.make_transfer(fields, book.names, found)
        self.settlement = found.take(books.opening_day, fields, "settlement_day", book.calendar)
        self.contract = found.take(messages.contract_date, fields) if fields.has("contract_date") else None
        if not found.faults:
            self.judge_rows(found)

    def judge_rows(self, found):
        """Finds rows in the source that the security does not have."""
        filled = [number for number, _ in self.book.rows(self.transfer.security)]
        allowed = "filled rows of the security: " + (", ".join(map(str, filled)) or "none")
        for value in found.take(self.fields.items, "rows", allowed) or ():
            if isinstance(value, bool) or value not in filled:
                found.add(self.fields.fault("rows", "%s is no such row" % sample(value), allowed))

    def has_older_rules(self):
        """Whether the transfer settles before the memo."""
        return self.settlement < dates.MEMO_DAY

    def contract_day(self):
        """The Contract Date; none where there is no tag, or an empty one that does not stand for the settlement day."""
        if self.contract == messages.EMPTY:
            return self.settlement if self.has_older_rules() else None
        return self.contract

    def chosen_rows(self):
        """The rows to draw: those that the source names, else those with a date near the transfer's days."""
        filled = self.book.rows(self.transfer.security)
        if self.fields.has("rows"):
            return [entry for entry in filled if entry[0] in self.fields.values["rows"]]
        contract = self.contract_day() or self.settlement
        first, last = min(contract, self.settlement), max(contract, self.settlement)
        return [(number, row) for number, row in filled
                if any(day is not None and first - DAYS_BEFORE <= day <= last + DAYS_AFTER
                       for day in map(dates.of_number, row[:3]))]

    def work(self, path):
        """Runs claimrun for this transfer alone, on a book opened on its settlement day."""
        self.rows = self.chosen_rows()
        opened = books.Book(self.book.calendar, self.book.tables, dates.number(self.settlement), self.book.names)
        with tempfile.TemporaryDirectory(prefix="claimdesk-") as folder:
            run = running.Run(path, folder, opened, running.Progress())
            run.transfer(self.transfer)
            run.work()
            with run.output() as output:
                self.records = list(claims.records(output, "claimrun's output"))

    def events(self):
        """The dates to mark."""
        day = self.contract_day()
        marks = [] if day is None else [timeline.Event(day, "contract", "Contract Date")]
        for number, row in self.rows:
            which = ", row %d" % number if len(self.rows) > 1 else ""
            for key, name in (("record", "Record Date"), ("beneficiary", "Beneficiary Date"), ("payment", "Payment Date")):
                day = dates.of_number(getattr(row, key))
                if day is not None:
                    marks.append(timeline.Event(day, key, name + which))
        return marks + [timeline.Event(self.settlement, "settlement", "Settlement day")]

    def facts(self):
        """What the source says of the transfer, as names and values."""
        names, transfer = self.book.names, self.transfer
        found = [("Sender", names.account_name(transfer.sender)), ("Receiver", names.account_name(transfer.receiver)),
                 ("Security", names.security_name(transfer.security)), ("Par", "$" + format(transfer.par, ","))]
        code = layout.name_of(layout.CODES, transfer.code)
        if transfer.code:
            found.append(("Tracking code", "%s, %s" % (code, layout.CODE_WORDS[code])))
        if transfer.market:
            found.append(("Market", "other than secondary"))
        found += [("Contract Date", self.contract_words()), ("Settlement day", timeline.day_words(self.settlement))]
        if self.has_older_rules():
            found.append(("Rules", "those of days before %s" % timeline.day_words(dates.MEMO_DAY)))
        return found + self.security_facts()

    def contract_words(self):
        """The Contract Date in words."""
        if self.contract is None:
            return "none given"
        if self.contract != messages.EMPTY:
            return timeline.day_words(self.contract)
        return "the settlement day, by an empty tag" if self.has_older_rules() else "an empty tag, which holds no date"

    def security_facts(self):
        """What the amount of a claim is worked out from: type, frequency, and the factors of each payment that is drawn. A piece that is
        given stands among them."""
        words = self.book.tables[layout.SECURITY_WORDS * self.transfer.security:][:2]
        if words[0] == 0:
            return []
        found = [("Type", "%s, %s" % (layout.name_of(layout.TYPES, words[0]), layout.name_of(layout.FREQUENCIES, words[1])))]
        piece = self.book.names.piece(self.transfer.security)
        if piece != 1:
            found.append(("Piece", "$%s of par; claimrun lends ones and does not ask for it" % format(piece, ",")))
        for number, row in self.rows:
            which = ", row %d" % number if len(self.rows) > 1 else ""
            found.append(("Payment" + which, "for each dollar of par $%s interest, $%s principal" % (
                factors.show(row.interest), factors.show(row.principal))))
        return found

    # ---- the answers, all of it from claimrun's records

    def claims(self):
        return [record for record in self.records if isinstance(record, layout.Claim)]

    def outcome(self):
        """Who owes what, as HTML: the claims, whether each payment that is drawn was claimed, and the line with the release dates."""
        made, answer = self.claims(), self.records[-1]
        if answer.number:
            return "<p>claimrun refuses the transfer: %s.</p>" % escape("%d, %s" % (answer.number, claims.MEANINGS[answer.number]))
        if not made:
            shown = "<p><strong>Nobody owes anything.</strong> claimrun accepts the transfer and writes no claim.</p>"
        elif len(made) == 1:
            shown = "<p>%s</p>" % self.claim_words(made[0])
        else:
            shown = self.claim_table(made)
        return shown + self.coupons(made) + self.release_line(made)

    def claim_words(self, claim):
        """A claim or notice as a sentence."""
        names = self.book.names
        amounts = "$%s interest and $%s principal" % (claims.money(claim.interest), claims.money(claim.principal))
        which = "the payment with Beneficiary Date %s (row %d, %s)" % (self.coupon(claim), claim.row, claims.type_of(claim))
        who = (escape(names.account_name(claim.payer)), escape(names.account_name(claim.payee)))
        if claim.outcome:
            return "<strong>A notice, no money moves</strong>: %s. It names %s as payer, %s as payee, %s, for %s." % (
                claims.NOTICES[claim.outcome], *who, amounts, which)
        return "<strong>%s owes %s</strong> %s, for %s. Release date %s, %s." % (
            *who, amounts, which, told(claim.release), claims.when_or_why(claim))

    def coupon(self, claim):
        """The Beneficiary Date of a claim's row."""
        return told(layout.row_at(self.book.tables, claim.security, claim.row).beneficiary)

    def claim_table(self, made):
        """Several claims of the transfer, all between its two accounts, one to a row, and no totals."""
        names, rows = self.book.names, []
        for claim in made:
            release, when = ("notice", claims.SHORT_NOTICES[claim.outcome]) if claim.outcome else (told(claim.release), claims.when_or_why(claim))
            cells = ("%s, %s" % (self.coupon(claim), claims.type_of(claim)), "$" + claims.money(claim.interest),
                     "$" + claims.money(claim.principal), release, when)
            rows.append("<tr>%s</tr>" % "".join("<td%s>%s</td>" % (' class="amount"' if name in AMOUNTS else "", cell)
                                                for name, cell in zip(COLUMNS, cells)))
        who = (escape(names.account_name(made[0].payer)), escape(names.account_name(made[0].payee)))
        words = "<strong>%s owes %s</strong>, payment by payment (a notice moves no money):" if any(
            not claim.outcome for claim in made) else "<strong>Notices, no money moves</strong>: payer %s, payee %s."
        return "<p>%s</p><table><thead><tr>%s</tr></thead><tbody>%s</tbody></table>" % (
            words % who, "".join("<th>%s</th>" % name for name in COLUMNS), "".join(rows))

    def coupons(self, made):
        """Of each payment that is drawn, whether claimrun claimed it."""
        found = {claim.row: "a notice" if claim.outcome else "claimed" for claim in made}
        lines = ["<li>Beneficiary Date %s: %s</li>" % (told(row.beneficiary), found.get(number, "not claimed")) for number, row in self.rows]
        return "<ul>%s</ul>" % "".join(lines) if lines else ""

    def release_line(self, made):
        """The time line again, with the release dates."""
        releases = sorted({claim.release for claim in made if claim.release})
        if not releases:
            return ""
        marks = [timeline.Event(dates.of_number(number), "release", "Release date") for number in releases]
        events = self.events() + marks
        return timeline.draw(self.number + 2, "release, " + self.title, events, timeline.Scale([events], self.book.calendar))


def article(side, scale):
    """One column: the transfer's facts and its time line."""
    facts = "".join("<dt>%s</dt><dd>%s</dd>" % (name, escape(value)) for name, value in side.facts())
    drawn = timeline.draw(side.number, side.title, side.events(), scale)
    return '<article>\n<h2>%s</h2>\n<dl>%s</dl>\n%s\n<p class="paper">Your answer:</p>\n</article>\n' % (
        escape(side.title), facts, drawn)


def fold(side):
    """The fold over who owes what."""
    return "<details>\n<summary>Who owes what? %s</summary>\n%s\n</details>\n" % (escape(side.title), side.outcome())


def sides_of(source, book, found):
    """The two [[transfer]] tables of a source."""
    transfers = found.take(source.top.tables, "transfer") or []
    if len(transfers) != 2:
        found.add(Fault(source.path, "has %d [[transfer]] tables" % len(transfers), "two", 1))
    return [Side(fields, book, number, found) for number, fields in enumerate(transfers, 1)]


def page(source, book, path, found):
    """The page for a source with two [[transfer]] tables."""
    top = source.top
    sides = sides_of(source, book, found)
    title, question = found.take(top.text, "title", TITLE), found.take(top.text, "question", "")
    found.end()
    path = running.program(path)
    for side in sides:
        side.work(path)
    scale = timeline.Scale([side.events() for side in sides], book.calendar)
    title = escape(title)
    asked = "<p>%s</p>\n" % escape(question) if question else ""
    asked += "<p>Hatched: a closed day.</p>\n"
    return ('<!DOCTYPE html>\n<html lang="en">\n<head>\n<meta charset="utf-8">\n'
            '<meta name="viewport" content="width=device-width, initial-scale=1">\n<title>%s</title>\n'
            "<style>%s</style>\n</head>\n<body>\n<header>\n<h1>%s</h1>\n%s</header>\n"
            '<main>\n<div class="pair">\n%s</div>\n<div class="pair answers">\n%s</div>\n</main>\n'
            "<footer>Who owes what is what claimrun writes for each transfer by itself, on a book opened on its "
            "settlement day.</footer>\n</body>\n</html>\n" % (
                title, STYLE, title, asked, "".join(article(side, scale) for side in sides),
                "".join(map(fold, sides))))
