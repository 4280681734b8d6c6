"""Messages: transfer and close records from a TOML or CSV source."""
import csv
import io
import os
import re

from . import book, dates, files, layout, names
from .errors import Fault
from .sources import Fields, Source, listing, meant, sample, written_number

TRANSFER_KEYS = ("sender", "receiver", "security", "market", "code", "par", "contract_date", "text1", "text2",
                 "line1_hex", "line2_hex")
COLUMNS = ("close",) + TRANSFER_KEYS + ("hex",)
NUMBER_COLUMNS = ("close", "sender", "receiver", "security", "par")
MARKER = "{contract_date}"
EMPTY = "empty"                             # the contract_date of a tag without a date
CONTRACT_DATE = '%s; or "%s" for a tag without a date' % (dates.ALLOWED, EMPTY)
CLOSES_MAX = 100_000
PRINTABLE = re.compile(r"[ -~]*")
csv.field_size_limit(2 ** 31 - 1)


class CsvRow(Fields):
    """A line of a CSV source; empty cells are absent."""

    def __init__(self, path, line, values):
        super().__init__(values)
        self.path, self.line = path, line

    def fault(self, key, what, allowed=None):
        return Fault(self.path, what, allowed, self.line, key)


def tag(contract):
    """The tag of a Contract Date, or the empty one."""
    return "{98A:CNTR/%s}" % ("" if contract == EMPTY else dates.number(contract))


def contract_date(fields):
    """The Contract Date that the fields give: a date, or EMPTY."""
    value = fields.value("contract_date", CONTRACT_DATE)
    if isinstance(value, str) and value.strip() == EMPTY:
        return EMPTY
    return fields.date_of("contract_date", value, CONTRACT_DATE)


def make_one(fields, its_names, found):
    """The bytes of one message of a source, or None where it has mistakes."""
    for key, make in (("hex", make_hex), ("close", make_closes)):
        if fields.has(key):
            return found.take(alone, fields, key, make)
    fields.known(found, *COLUMNS)
    transfer = make_transfer(fields, its_names, found)
    return None if transfer is None else layout.transfer_bytes(transfer)


def alone(fields, key, make):
    """What a key that stands alone in its message makes."""
    for other in fields.values:
        if other != key:
            raise fields.fault(other, "stands beside %s" % key, "%s alone in its message" % key)
    return make(fields)


def make_hex(fields):
    return hex_bytes(fields, "hex", None)


def make_closes(fields):
    if fields.values["close"] is True:
        return layout.CLOSE_BYTES
    return layout.CLOSE_BYTES * fields.integer("close", 1, CLOSES_MAX)


def make_transfer(fields, its_names, found):
    """The transfer that the fields describe, or None where they have mistakes."""
    before = found.count
    sender, receiver = (found.take(names.account, fields, key, its_names) for key in ("sender", "receiver"))
    if sender is not None and sender == receiver:
        found.add(fields.fault("receiver", "account %d is the sender too" % receiver, "another account than the sender's"))
    security = found.take(names.security, fields, "security", its_names)
    market = found.take(fields.choice, "market", layout.MARKETS, "secondary")
    code = found.take(fields.choice, "code", layout.CODES, "none")
    par = found.take(fields.integer, "par", 1, layout.PAR_MAX)
    lines = make_lines(fields, found)
    if found.count > before:
        return None
    warn_of_piece(fields, security, par, its_names, found)
    return layout.Transfer(sender, receiver, security, market, code, par, *lines)


def warn_of_piece(fields, security, par, its_names, found):
    """A par should be a multiple of its security's piece, though claimrun, which lends ones, does not ask for it."""
    piece = its_names.piece(security)
    if par % piece:
        words = format(par, ","), format(piece, ","), its_names.security_name(security)
        found.warn(fields.fault("par", "%s is no multiple of the piece %s of %s: claimrun lends ones and does not refuse it for this, a "
                                "call lent this piece answers 14" % words,
                                "multiples of %s, or exactly the whole balance in a decrease" % words[1]))


def make_lines(fields, found):
    """The two free text lines, 64 bytes each."""
    texts = {key: found.take(fields.text, key, "") or "" for key in ("text1", "text2")}
    if fields.has("contract_date"):
        texts = found.take(with_tag, fields, texts) or texts
    return [found.take(make_line, fields, number, texts["text%d" % number]) for number in (1, 2)]


def with_tag(fields, texts):
    """The texts with the tag of contract_date in its place."""
    written = tag(contract_date(fields))
    markers = sum(text.count(MARKER) for text in texts.values())
    if markers > 1:
        raise fields.fault("text1", "%s stands there more than once" % MARKER, "one place for the tag")
    if markers == 0:
        if fields.has("line1_hex"):
            raise fields.fault("line1_hex", "stands where the tag of contract_date goes",
                               "contract_date with text1, or with %s in text2" % MARKER)
        texts = texts | {"text1": MARKER + texts["text1"]}
    return {key: text.replace(MARKER, written) for key, text in texts.items()}


def make_line(fields, number, text):
    """One line from its text, filled with spaces, or from its bytes in hex."""
    key, hex_key = "text%d" % number, "line%d_hex" % number
    if fields.has(hex_key):
        if text:
            raise fields.fault(hex_key, "stands beside %s" % key, "one of the two")
        return hex_bytes(fields, hex_key, layout.LINE)
    allowed = "at most 64 printable ASCII characters, the tag of contract_date (19, or 11 where it is empty) included"
    if not PRINTABLE.fullmatch(text):
        wrong = next(letter for letter in text if not PRINTABLE.fullmatch(letter))
        raise fields.fault(key, "has the character %s" % wrong, allowed)
    if len(text) > layout.LINE:
        raise fields.fault(key, "the line has %d characters" % len(text), allowed)
    return text.ljust(layout.LINE).encode("ascii")


def hex_bytes(fields, key, size):
    """Bytes written in hex, of the size asked for."""
    allowed = "bytes as pairs of hex digits" + (", %d of them" % size if size else "")
    try:
        data = bytes.fromhex(fields.text(key))
    except ValueError:
        raise fields.fault(key, "%s is no hex" % sample(fields.text(key)), allowed) from None
    if size is not None and len(data) != size:
        raise fields.fault(key, "has %d bytes" % len(data), allowed)
    return data


def csv_values(cells):
    """The values of a CSV line's cells: numbers where a number may stand, the rest as text."""
    values = {}
    for column, cell in cells.items():
        if cell == "":
            continue
        if column in NUMBER_COLUMNS and (number := written_number(cell)) is not None:
            values[column] = number
        elif column == "close" and cell.replace("_", "").strip() == "true":
            values[column] = True
        else:
            values[column] = cell if column in ("text1", "text2") else cell.strip()
    return values


def csv_rows(path, text, found):
    """The lines of a CSV source behind its header line; lines that are wrong as a whole are left out."""
    reader = csv.reader(io.StringIO(text, newline=""), strict=True)
    header = None
    try:
        for cells in filter(any, reader):
            if header is None:
                header = csv_header(path, reader.line_num, cells, found)
            elif len(cells) != len(header):
                found.add(Fault(path, "%d cells" % len(cells), "%d, as in the header line; a cell may be empty, and a number has no "
                                "comma" % len(header), reader.line_num))
            else:
                yield CsvRow(path, reader.line_num, csv_values(dict(zip(header, cells))))
    except csv.Error as error:
        found.add(Fault(path, "no CSV: %s" % error, None, reader.line_num))
    if header is None:
        found.add(Fault(path, "has no header line", listing(COLUMNS), 1))


def csv_header(path, line, cells, found):
    """The columns that the header line names. What stands below is judged only where all of them are known."""
    header = [cell.strip() for cell in cells]
    before = found.count
    for place, column in enumerate(header):
        if column not in COLUMNS:
            found.add(Fault(path, "unknown column %s%s" % (sample(column), meant(column, COLUMNS)), listing(COLUMNS), line))
        elif column in header[:place]:
            found.add(Fault(path, "column %s stands there twice" % column, "each column once", line))
    if found.count > before:
        found.end()
    return header


def is_csv(path):
    return path.lower().endswith(".csv")


def sequence(path, found, source=None):
    """The messages of a source in order, as Fields, and the files that they stand in."""
    fields_and_paths = found.take(find_sequence, path, found, source)
    if fields_and_paths is None:
        found.end()
    return fields_and_paths


def find_sequence(path, found, source):
    """The same: the messages of a .csv file, of a TOML file, or of the file it names."""
    if is_csv(path):
        return csv_rows(path, files.read_text(path), found), [path]
    source = source or Source(path)
    top = source.top
    top.known(found, *book.KEYS, *book.OTHER_KEYS)
    if top.has("messages"):
        if top.has("message"):
            found.add(top.fault("message", "stands beside messages = \"%s\"" % top.text("messages"), "one of the two"))
            found.end()
        named = os.path.join(os.path.dirname(path), top.text("messages"))
        inner = None if is_csv(named) else Source(named)
        if inner and inner.top.has("messages"):
            raise inner.top.fault("messages", "a file of messages that names another", "[[message]] tables")
        return find_sequence(named, found, inner)[0], [path, named]
    if not top.has("message"):
        allowed = "[[message]] tables, or messages = \"FILE\""
        if "message" not in top.misspelt:
            found.add(Fault(path, "has no messages", allowed, 1))
    return found.take(top.tables, "message") or (), [path]


def make_into(file, fields_in_order, its_names, found, tick=lambda count: None):
    """Writes the records of a source to a file."""
    for count, fields in enumerate(fields_in_order, 1):
        data = make_one(fields, its_names, found)
        if data is not None:
            file.write(data)
        tick(count)
