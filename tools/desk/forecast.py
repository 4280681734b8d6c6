"""The cash forecast: the claims of claimrun's output handed to the library, and the figures that it gives. Nothing is added up here."""
import bisect
import csv
import importlib.util
import io
import json

from . import claims, claims_text, dates, layout, names, running
from .errors import Fault
from .sources import Fields, written_number

HEADINGS = ("account", "release", "to pay", "to receive", "receive less pay")
LEFT = ("account", "release")
FIGURES = ("pay", "receive", "difference")
FIELDS = ("account", "account_name", "release_date") + FIGURES
BAD_FORECAST = 18
RUN = "claims of %d bytes, each between two different accounts from 0 to %d, and answers of %d bytes between them" % (
    layout.CLAIM.size, layout.ACCOUNTS - 1, layout.ANSWER.size)
INSTALL = ("run 'tools/install PREFIX' in the repository and then PREFIX/bin/claimdesk, or set CLAIM_TRACKER_LIBRARY to "
           "PREFIX/lib/libclaim_tracker.so.2")


class Options(Fields):
    """Values of the command line."""

    def fault(self, key, what, allowed=None):
        return Fault("--" + key, what, allowed)


def wanted(account, date, its_names):
    """The account and the date that the command line asks for."""
    number = written_number(account)
    options = Options({"account": account if number is None else number, "date": date})
    return names.account(options, "account", its_names), options.date("date")


def library():
    """The Python module over the library. It is loaded here alone: other commands do without it."""
    path = running.own_file("python", "claim_tracker.py")
    spec = importlib.util.spec_from_file_location("claim_tracker", path)
    module = importlib.util.module_from_spec(spec)
    try:
        spec.loader.exec_module(module)
    except ImportError as error:
        raise Fault("forecast", str(error), INSTALL) from None
    return module


def records(data):
    """The records of claimrun's output, each with the place of its first byte and its kind. Bytes that begin no whole claim or answer
    are the last one, with all that stands behind them, and have no kind."""
    at = 0
    while at < len(data):
        header = layout.HEADER.unpack_from(data, at) if len(data) - at >= layout.HEADER.size else None
        form, kind = claims.FORMS.get(header, (None, None))
        if form is None or len(data) - at < form.size:
            yield at, data[at:], None
            return
        yield at, data[at:at + form.size], kind
        at += form.size


def figures(call, data, name, account, day, view):
    """The cents that the library's call gives for claimrun's output: to pay, to receive, and receive less pay. Answers are counted and
    left out; all else is handed over as it is, so that the library judges it. A refusal has the place of the record with which the run
    is first refused so: with more records behind it, it stays so."""
    places, run = [], []
    for place, record, kind in records(data):
        if kind is layout.Answer:
            view.count(layout.Answer(*layout.ANSWER.unpack(record)[2:]))
        else:
            places.append(place)
            run.append(record)

    def answered(count):
        return call(b"".join(run[:count]), account, dates.number(day))

    number, cash = answered(len(run))
    if number:
        first = bisect.bisect_left(range(len(run)), True, key=lambda count: answered(count).number == number)
        raise Fault("%s: byte %d" % (name, places[first - 1]) if first else name,
                    "the forecast is refused with %d, %s" % (number, claims.MEANINGS[number]), RUN if number == BAD_FORECAST else None)
    return [int(figure) for figure in cash]


# ---- the three forms

def text(account, day, cents, its_names):
    """The forecast as a table of one row."""
    rows = (HEADINGS, (its_names.account_label(account), str(day), *map(claims.money, cents)))
    widths = [max(map(len, column)) for column in zip(*rows)]
    return "".join("  ".join(cell.ljust(width) if name in LEFT else cell.rjust(width)
                             for cell, width, name in zip(row, widths, HEADINGS)) + "\n" for row in rows)


def values(account, day, cents, its_names):
    """The forecast as keys and values; amounts are text so that they stay exact."""
    found = claims_text.named("account", account, its_names.accounts) | {"release_date": str(day)}
    return found | dict(zip(FIGURES, map(claims.plain_money, cents)))


def as_csv(*forecast):
    """The forecast as CSV. A figure below zero is a number to a spreadsheet, and stays as it is."""
    buffer = io.StringIO()
    writer = csv.DictWriter(buffer, FIELDS, restval="", lineterminator="\n")
    writer.writeheader()
    writer.writerow({key: cell if key in FIGURES else claims_text.safe(cell) for key, cell in values(*forecast).items()})
    return buffer.getvalue()


def as_json(*forecast):
    """The forecast as a JSON object."""
    return json.dumps(values(*forecast), ensure_ascii=False) + "\n"


def show(form, *forecast):
    """An account, a date, the cents and the names in one of the three forms."""
    return {"text": text, "csv": as_csv, "json": as_json}[form](*forecast).encode("utf-8")
