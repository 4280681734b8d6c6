"""The source that stands for a file of message records: text that make turns into the same bytes."""
import csv
import io
import re
from itertools import groupby

from . import dates, layout, messages
from .errors import Fault, Mistakes
from .names import Names

TAG = re.compile(rb"\{98A:CNTR/([0-9]{8})?\}")
HEX_LINE = 64


class Shown(messages.Fields):
    """The values of a message that is shown; any trouble means that these values cannot say it."""

    def fault(self, key, what, allowed=None):
        return Fault(key, what, allowed)


def values_of(message):
    """The keys and values that make turns into the message."""
    if isinstance(message, layout.Rest):
        return {"hex": message.data.hex()}
    record = layout.transfer_bytes(message)
    for values in candidates(message):
        if messages.make_one(Shown(values), Names(), Mistakes()) == record:
            return values
    return {"hex": record.hex()}


def plain_tag(lines):
    """The tag in two lines, where there is one and it is empty or has a date: what contract_date says for it, and its bytes."""
    found = [match for line in lines for match in TAG.finditer(line)]
    if len(found) != 1:
        return None, b""
    digits = found[0][1]
    return messages.EMPTY if digits is None else dates.of_number(int(digits)), found[0][0]


def candidates(message):
    """Ways to say a transfer, the plainest first."""
    if message.market not in layout.MARKETS.values() or message.code not in layout.CODES.values():
        return
    values = {"sender": message.sender, "receiver": message.receiver, "security": message.security}
    if message.market:
        values["market"] = layout.name_of(layout.MARKETS, message.market)
    if message.code:
        values["code"] = layout.name_of(layout.CODES, message.code)
    values["par"] = message.par
    lines = (message.line1, message.line2)
    texts = [line.decode("latin-1").rstrip(" ") for line in lines]
    contract, tag = plain_tag(lines)
    if contract is not None:
        marked = [text.replace(tag.decode("ascii"), messages.MARKER) for text in texts]
        if marked[0].startswith(messages.MARKER):
            marked[0] = marked[0][len(messages.MARKER):]
        yield values | {"contract_date": contract} | text_values(marked)
    yield values | text_values(texts)
    yield values | {"line%d_hex" % number: line.hex() for number, line in enumerate(lines, 1) if line.strip(b" ")}


def text_values(texts):
    return {"text%d" % number: text for number, text in enumerate(texts, 1) if text}


def entries(stream):
    """The messages of a stream as values, runs of closes as one."""
    for is_close, group in groupby(stream, lambda message: isinstance(message, layout.Close)):
        if not is_close:
            yield from map(values_of, group)
            continue
        count = sum(1 for _ in group)
        while count:
            yield {"close": min(count, messages.CLOSES_MAX)}
            count -= min(count, messages.CLOSES_MAX)


def quoted(text):
    """A TOML string of printable ASCII."""
    return '"%s"' % text.replace("\\", "\\\\").replace('"', '\\"')


def toml_value(key, value):
    if key == "contract_date" and value != messages.EMPTY:
        return str(value)
    if isinstance(value, int):
        return format(value, "_") if key == "par" else str(value)
    if key == "hex" and len(value) > 2 * HEX_LINE:
        lines = (value[at:at + 2 * HEX_LINE] for at in range(0, len(value), 2 * HEX_LINE))
        return '"""\n%s\n"""' % "\n".join(lines)
    return quoted(value)


def show_toml(stream):
    """The stream as a TOML source, in pieces."""
    number = 0
    for number, values in enumerate(entries(stream), 1):
        lines = ["[[message]]"] + ["%s = %s" % (key, toml_value(key, value)) for key, value in values.items()]
        yield ("\n" if number > 1 else "") + "\n".join(lines) + "\n"
    if number == 0:
        yield "message = []\n"


def show_csv(stream):
    """The stream as a CSV source, in pieces."""
    buffer = io.StringIO()
    writer = csv.DictWriter(buffer, messages.COLUMNS, restval="", lineterminator="\n")
    writer.writeheader()
    for values in entries(stream):
        writer.writerow(values)
        yield buffer.getvalue()
        buffer.seek(0)
        buffer.truncate()
    yield buffer.getvalue()
