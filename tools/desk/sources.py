"""Sources: TOML files with the line of each key, and their values taken by key with plain errors."""
import ast
import decimal
import difflib
import re
import tomllib

from . import dates, files
from .errors import Fault, Untold, shown

REQUIRED = object()
ARRAY_HEADER = re.compile(r"\s*\[\[\s*([A-Za-z0-9_.-]+)\s*\]\]")
TABLE_HEADER = re.compile(r"\s*\[\s*([A-Za-z0-9_.-]+)\s*\]")
KEY = re.compile(r"\s*([A-Za-z0-9_-]+|\"[^\"]*\")\s*=")
TRIPLE = re.compile(r'"""|\'\'\'')
OTHER_NUMBER = re.compile(r"[0-9]+|[0-9]{1,3}(,[0-9]{3})+")
BARE_DATE = re.compile(r"[0-9]+[/.-][0-9]+[/.-][0-9]+")
BARE_NUMBER = re.compile(r"=\s*([0-9]+(?:,[0-9]+)+)")
ESCAPED = re.compile(r"'\\(?:x..|u....|U........|.)'")
SYNTAX = re.compile(r"(.*) \(at (?:line ([0-9]+), column ([0-9]+)|end of document)\)", re.S)
TOML = "TOML, such as par = 200_000, payment = 2023-04-15 or name = \"text\""


def line_table(text):
    """The line of each table and key that a light scan of the text finds, by their path."""
    lines, counts, at, within = {}, {}, (), False
    for number, line in enumerate(text.split("\n"), 1):
        starts_within = within
        if len(TRIPLE.findall(line)) % 2:
            within = not within
        if starts_within:
            continue
        array, table, key = ARRAY_HEADER.match(line), TABLE_HEADER.match(line), KEY.match(line)
        if array:
            at = array_path(array[1].split("."), counts)
            lines[at] = number
            lines.setdefault(at[:-1], number)
        elif table:
            at = tuple(table[1].split("."))
            lines[at] = number
        elif key:
            lines.setdefault(at + (key[1].strip('"'),), number)
    return lines


def array_path(names, counts):
    """The path of the next table of an array, such as (security, 0, payment, 2)."""
    path = ()
    for name in names[:-1]:
        path += (name,)
        if path in counts:
            path += (counts[path] - 1,)
    path += (names[-1],)
    counts[path] = counts.get(path, 0) + 1
    return path + (counts[path] - 1,)


def path_words(path):
    """A key's path in words: [[security]] 1, payment 2, interest."""
    words = []
    for step in path:
        if isinstance(step, int):
            words[-1] = "%s %d" % (words[-1] if len(words) > 1 else "[[%s]]" % words[-1], step + 1)
        else:
            words.append(step)
    return ", ".join(words)


def listing(names):
    """Names in a row, for what is allowed."""
    return ", ".join(str(name) for name in names)


def sample(value):
    """A value as an error shows it: as a source would say it, where that is short."""
    if isinstance(value, bool):
        return "true" if value else "false"
    if isinstance(value, (list, dict)):
        return "a list" if isinstance(value, list) else "a table"
    text = value if isinstance(value, str) else str(value).lower()
    text = text if len(text) <= 40 else text[:37] + "..."
    return '"%s"' % text if isinstance(value, str) else text


def meant(word, allowed):
    """A hint for a word that is like an allowed one."""
    close = difflib.get_close_matches(word, allowed, 1)
    return " (meant: %s?)" % close[0] if close else ""


def meant_number(value):
    """A hint for a whole number that is written with commas or in quotes."""
    if not isinstance(value, str) or not OTHER_NUMBER.fullmatch(value.strip()):
        return ""
    return " (meant: %s?)" % value.strip().replace(",", "")


def written_number(text):
    """The whole number that a text writes, or None."""
    plain = text.replace("_", "").strip()
    return int(plain) if plain.isascii() and plain.isdecimal() and len(plain) < 20 else None


def other_form(line):
    """What is wrong with the first date or number in a line of a source that has another form; None if none has."""
    for text in BARE_DATE.findall(line):
        if dates.read(text) is None and dates.meant(text):
            return "%s is no date here%s" % (text, dates.meant(text))
    number = BARE_NUMBER.search(line)
    if number and meant_number(number[1]):
        return "%s is no whole number%s" % (number[1], meant_number(number[1]))
    return None


class Fields:
    """Values by key with their place in a file. Each method refuses what is not allowed with a Fault."""

    def __init__(self, values):
        self.values = values
        self.misspelt = set()

    def fault(self, key, what, allowed=None):
        raise NotImplementedError

    def known(self, found, *allowed):
        """Finds keys other than these."""
        for key in self.values:
            if key not in allowed:
                self.misspelt.update(difflib.get_close_matches(key, allowed, 1))
                found.add(self.fault(key, "unknown key%s" % meant(key, allowed), listing(allowed)))

    def has(self, key):
        return key in self.values

    def value(self, key, allowed, default=REQUIRED):
        if key in self.values:
            return self.values[key]
        if default is REQUIRED:
            raise self.missing(key, allowed)
        return default

    def missing(self, key, allowed):
        """A Fault for a key that is not there; untold where it is there, misspelt."""
        return (Untold if key in self.misspelt else self.fault)(key, "is missing", allowed)

    def integer(self, key, low, high, default=REQUIRED):
        """A whole number from low to high."""
        allowed = "a whole number from %s to %s" % (format(low, ","), format(high, ","))
        value = self.value(key, allowed, default)
        if key in self.values:
            if not isinstance(value, int) or isinstance(value, bool):
                raise self.fault(key, "%s is no whole number%s" % (sample(value), meant_number(value)), allowed)
            if not low <= value <= high:
                raise self.fault(key, "%s is out of range" % format(value, ","), allowed)
        return value

    def date(self, key, default=REQUIRED):
        value = self.value(key, dates.ALLOWED, default)
        if key not in self.values:
            return value
        return self.date_of(key, value)

    def date_of(self, key, value, allowed=dates.ALLOWED):
        day = dates.read(value)
        if day is None:
            raise self.fault(key, "%s is no date here%s" % (sample(value), dates.meant(value)), allowed)
        return day

    def items(self, key, allowed):
        """The values of a list; none where the key is absent."""
        value = self.value(key, allowed, [])
        if not isinstance(value, list):
            raise self.fault(key, "%s is no list" % sample(value), "a list in [ ] of: " + allowed)
        return value

    def date_set(self, key, found):
        """The dates of a list that are dates."""
        days = (found.take(self.date_of, key, value) for value in found.take(self.items, key, dates.ALLOWED) or ())
        return {day for day in days if day is not None}

    def choice(self, key, names, default=REQUIRED):
        """The number of a name."""
        value = self.value(key, listing(names), default)
        if not isinstance(value, str) or value not in names:
            raise self.fault(key, "%s is not known" % sample(value), listing(names))
        return names[value]

    def flag(self, key, default):
        value = self.value(key, "true or false", default)
        if not isinstance(value, bool):
            raise self.fault(key, "%s is neither true nor false" % sample(value), "true, false")
        return value

    def text(self, key, default=REQUIRED):
        value = self.value(key, "text in quotes", default)
        if key in self.values and not isinstance(value, str):
            raise self.fault(key, "%s is no text" % sample(value), "text in quotes")
        return value


class Table(Fields):
    """A table of a TOML source."""

    def __init__(self, source, path, values):
        super().__init__(values)
        self.source, self.path = source, path

    def fault(self, key, what, allowed=None):
        path = self.path + (key,) if key is not None else self.path
        return self.source.fault(path, what, allowed)

    def table(self, key):
        """The table under a key; an empty one where the key is absent."""
        value = self.value(key, "a table [%s]" % key, {})
        if not isinstance(value, dict):
            raise self.fault(key, "is no table", "a table [%s]" % key)
        return Table(self.source, self.path + (key,), value)

    def tables(self, key):
        """The tables of an array; none where the key is absent."""
        name = ".".join([step for step in self.path if isinstance(step, str)] + [key])
        value = self.value(key, "tables [[%s]]" % name, [])
        if not isinstance(value, list) or not all(isinstance(item, dict) for item in value):
            raise self.fault(key, "is no array of tables", "tables [[%s]]" % name)
        return [Table(self.source, self.path + (key, index), item) for index, item in enumerate(value)]


class Source:
    """A TOML file."""

    def __init__(self, path):
        self.path = files.shown(path)
        text = files.read_text(path)
        try:
            values = tomllib.loads(text, parse_float=decimal.Decimal)
        except tomllib.TOMLDecodeError as error:
            raise self.syntax(str(error), text.split("\n")) from None
        except RecursionError:
            raise Fault(path, "cannot be read as TOML: lists within lists, too many", TOML, 1) from None
        except (ValueError, ArithmeticError):
            raise Fault(path, "cannot be read as TOML: a number that is too long", TOML, 1) from None
        self.lines = line_table(text)
        self.top = Table(self, (), values)

    def syntax(self, error, lines):
        """A Fault for what the TOML reader says; where the line has a date or a number in another form, that is told instead."""
        words, line, column = SYNTAX.fullmatch(error).groups()
        line = int(line or len(lines))
        words = ESCAPED.sub(lambda letter: shown(ast.literal_eval(letter[0])), words)
        return Fault(self.path, other_form(lines[line - 1]) or ("column %s: %s" % (column, words) if column else words), TOML, line)

    def fault(self, path, what, allowed=None):
        """A Fault at a key's path, with the line of the key or, where it is absent, of its table; the file's first line for its own."""
        known = next((path[:size] for size in range(len(path), 0, -1) if path[:size] in self.lines), None)
        return Fault(self.path, what, allowed, 1 if known is None else self.lines[known], path_words(path) if path else None)
