"""Factors: billionths of a dollar for each dollar of par, written as exact decimals."""
import decimal
import re

from . import layout
from .sources import sample

PLACES = 9
ALLOWED = "dollars for each dollar of par from 0 to 2, at most 9 decimals, such as \"0.005\""
FORM = re.compile(r"[0-9]{1,30}(\.[0-9]{1,30})?")


def make(fields, key):
    """The factor under a key, 0 where it is absent."""
    value = fields.value(key, ALLOWED, 0)
    exact = as_decimal(value)
    if exact is None:
        raise fields.fault(key, "%s is no decimal number" % sample(value), ALLOWED)
    billionths = scaled(exact)
    if billionths is None:
        raise fields.fault(key, "%s has more than 9 decimals or is out of range" % sample(value), ALLOWED)
    return billionths


def as_decimal(value):
    """The value as a finite decimal, or None."""
    if isinstance(value, str):
        return decimal.Decimal(value.strip()) if FORM.fullmatch(value.strip()) else None
    if isinstance(value, int) and not isinstance(value, bool):
        return decimal.Decimal(value)
    return value if isinstance(value, decimal.Decimal) and value.is_finite() else None


def scaled(exact):
    """The decimal in billionths where that is a whole number in range, else None."""
    sign, digits, exponent = exact.as_tuple()
    text = "".join(map(str, digits))
    shortest = text.rstrip("0")
    if not shortest:
        return 0
    exponent += len(text) - len(shortest) + PLACES
    if sign or exponent < 0 or exponent + len(shortest) > len(str(layout.FACTOR_MAX)) + 1:
        return None
    billionths = int(shortest) * 10 ** exponent
    return billionths if billionths <= layout.FACTOR_MAX else None


def show(billionths):
    """The factor as a decimal."""
    whole, part = divmod(billionths, layout.FACTOR_ONE)
    return ("%d.%09d" % (whole, part)).rstrip("0").rstrip(".")
