"""Whether claimrun's output answers the messages that were sent. Records are compared and counted; no amount is looked at."""
from . import claims, layout
from .errors import Fault

ALLOWED = "for each message its claims and then one answer, in order"
GIVEN = "fail and interim claims between a transfer's own accounts in its security, lending and repo claims of a close"


class Check:
    """Follows claimrun's records and the messages side by side."""

    def __init__(self, calls, name):
        self.calls, self.name = calls, name
        self.message, self.messages, self.answered = None, 0, True
        self.records = self.answers = self.claims = self.notices = 0
        self.last = None
        self.place = 0

    def fault(self, what, allowed=ALLOWED):
        return Fault("%s: record %d, byte %d" % (self.name, self.records, self.place), what, allowed)

    def take(self, place, record):
        """One more record of the output."""
        self.records, self.place = self.records + 1, place
        if is_about_book(self.last):
            raise self.fault("follows the answer %d, which is about the book" % self.last.number, "that answer alone")
        if is_about_book(record):
            if self.records > 1:
                raise self.fault("the answer %d is about the book and stands behind other records" % record.number,
                                 "that answer alone")
        elif self.answered:
            self.next_message()
        if isinstance(record, layout.Answer):
            self.take_answer(record)
        else:
            self.take_claim(record)
        self.last = record

    def next_message(self):
        self.message = next(self.calls, None)
        if self.message is None:
            raise self.fault("there is no message %d that it could answer" % (self.messages + 1))
        self.messages += 1
        self.answered = False

    def take_claim(self, claim):
        if not may_claim(self.message, claim):
            raise self.fault("a claim that message %d cannot give" % self.messages, GIVEN)
        if claim.outcome:
            self.notices += 1
        else:
            self.claims += 1

    def take_answer(self, answer):
        self.answers += 1
        self.answered = True
        if is_about_book(answer):
            return
        if answer.number and isinstance(self.last, layout.Claim):
            raise self.fault("message %d is refused with %d, and there are claims of it" % (self.messages, answer.number))
        if (answer.number == claims.LAST_ANSWER) != isinstance(self.message, layout.Rest):
            raise self.fault("message %d is answered with %d" % (self.messages, answer.number),
                             "%d for bytes that are no whole message, and for nothing else" % claims.LAST_ANSWER)

    def end(self, size):
        """The output ends here; it must not be cut."""
        where = "%s: its end, byte %d" % (self.name, size)
        if not self.answered:
            raise Fault(where, "the claims of message %d have no answer: the output is cut" % self.messages, ALLOWED)
        if is_about_book(self.last):
            self.messages = sum(1 for _ in self.calls)
        elif next(self.calls, None) is not None:
            rest = self.messages + 1 + sum(1 for _ in self.calls)
            raise Fault(where, "message %d of %d has no answer: the output is cut" % (self.messages + 1, rest), ALLOWED)

    def words(self):
        """The counts in one line."""
        counted = ", ".join("%s %s%s" % (format(count, ","), name, "" if count == 1 else "s") for count, name in (
            (self.messages, "message"), (self.answers, "answer"), (self.claims, "claim"), (self.notices, "notice")))
        if is_about_book(self.last):
            return "%s: the book is refused with %d, %s" % (counted, self.last.number, claims.MEANINGS[self.last.number])
        if isinstance(self.message, layout.Rest):
            return "%s: claimrun stops at message %d, which is no whole record" % (counted, self.messages)
        return counted


def is_about_book(record):
    """Whether a record is the answer to a book that is refused."""
    return isinstance(record, layout.Answer) and record.number in claims.BOOK_ANSWERS


def may_claim(message, claim):
    """Whether a message is of the kind that gives such a claim, between the same accounts in the same security."""
    if isinstance(message, layout.Transfer):
        return claims.type_of(claim) in claims.TRANSFER_TYPES and (claim.payer, claim.payee, claim.security) == (
            message.sender, message.receiver, message.security)
    return isinstance(message, layout.Close) and claims.type_of(claim) not in claims.TRANSFER_TYPES


def check(calls, output, name):
    """Follows claimrun's output (a file) beside the messages, and gives the check with its counts."""
    found = Check(calls, name)
    for place, record in claims.placed(output, name):
        found.take(place, record)
    found.end(output.tell())
    return found
