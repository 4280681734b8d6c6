"""Names of accounts and securities, and pieces of securities, given in a book's source."""
from . import layout
from .sources import listing, sample

ACCOUNT = "an account, 0 to %d or a name from [accounts]" % (layout.ACCOUNTS - 1)
SECURITY = "a security, 0 to %d or its name" % (layout.SECURITIES - 1)


class Names:
    """The names by number; an account or security without a name goes by its number. Beside them stand the pieces that are given, 1 where
    none is: book.dat has neither."""

    def __init__(self):
        self.accounts, self.securities, self.pieces = {}, {}, {}

    def account_label(self, number):
        """An account's name, or its number, for tables. Names are given once each."""
        return self.accounts.get(number) or str(number)

    def security_label(self, number):
        """A security's name, or its number, for tables."""
        return self.securities.get(number) or str(number)

    def account_name(self, number):
        """An account's name, for sentences."""
        return self.accounts.get(number, "account %d" % number)

    def security_name(self, number):
        """A security's name, for sentences."""
        return self.securities.get(number, "security %d" % number)

    def piece(self, number):
        """A security's piece."""
        return self.pieces.get(number, 1)


def checked(fields, key, taken):
    """A name that is not empty, no number and not taken."""
    name = fields.text(key).strip()
    if not name or not name.isprintable() or name.isdecimal():
        raise fields.fault(key, "%s is no name" % sample(name), "printable text that is not a number alone")
    if name in taken.values():
        raise fields.fault(key, "the name %s is given twice" % sample(name), "a name for each number")
    return name


def read_accounts(fields, found):
    """The names of an [accounts] table."""
    names = {}
    for key in fields.values:
        if key not in map(str, range(layout.ACCOUNTS)):
            found.add(fields.fault(key, "is no account", "0 to %d" % (layout.ACCOUNTS - 1)))
        elif name := found.take(checked, fields, key, names):
            names[int(key)] = name
    return names


def find(fields, key, value, names, count):
    """The number that a value stands for: itself, or the number with this name."""
    if isinstance(value, str):
        wanted = value.strip()
        for number, name in names.items():
            if name == wanted:
                return number
    elif isinstance(value, int) and not isinstance(value, bool) and 0 <= value < count:
        return value
    out = isinstance(value, int) and not isinstance(value, bool)
    raise fields.fault(key, "%d is out of range" % value if out else "%s is not known" % sample(value),
                       "0 to %d" % (count - 1) + (" or a name: " + listing(names.values()) if names else ""))


def account(fields, key, names):
    """The account under a key."""
    return find(fields, key, fields.value(key, ACCOUNT), names.accounts, layout.ACCOUNTS)


def security(fields, key, names):
    """The security under a key."""
    return find(fields, key, fields.value(key, SECURITY), names.securities, layout.SECURITIES)
