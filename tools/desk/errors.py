"""What ends a command with status 1, and warnings, which do not."""
import sys

MOST = 20


def shown(text):
    """Text for one line: characters that cannot be printed go by their number."""
    return "".join(letter if letter.isprintable() else "U+%04X" % ord(letter) for letter in text)


class Fault(Exception):
    """Bad input or a file that cannot be used: where, what is wrong, and what is allowed. A mistake in a source has its line."""

    def __init__(self, where, what, allowed=None, line=None, key=None):
        super().__init__(where, what, allowed, line, key)
        self.where, self.what, self.allowed, self.line, self.key = where, what, allowed, line, key

    def text(self, kind=None):
        """One line; kind is a word such as warning."""
        place = "claimdesk: %s" % self.where if self.line is None else "%s:%d" % (self.where, self.line)
        text = ": ".join(filter(None, (place, kind, self.key, self.what)))
        return shown(text if self.allowed is None else "%s; allowed: %s" % (text, self.allowed))

    def __str__(self):
        return self.text()


class Faults(Fault):
    """All mistakes of a source, in the order of their lines."""

    def __init__(self, faults):
        files = list(dict.fromkeys(fault.where for fault in faults))
        self.faults = sorted(faults, key=lambda fault: (files.index(fault.where), fault.line or 0))
        super().__init__(None, None)

    def text(self, kind=None):
        lines = [fault.text(kind) for fault in self.faults]
        return "\n".join(lines + ["claimdesk: there may be more; %d mistakes are told at most" % MOST] * (len(lines) == MOST))


class Mistakes:
    """Collects the mistakes of a source, so that all of them are told at once, or the first of very many. What is odd in it and taken all
    the same is a warning, told when it is found."""

    def __init__(self):
        self.faults, self.texts, self.count, self.warnings = [], set(), 0, 0

    def add(self, fault):
        """One more mistake; the same one is told once."""
        self.count += 1
        if fault.text() not in self.texts:
            self.texts.add(fault.text())
            self.faults.append(fault)
        if len(self.faults) == MOST:
            self.end()

    def take(self, make, *args):
        """What make gives, or None where it finds a mistake."""
        try:
            return make(*args)
        except Faults:
            raise
        except Untold:
            self.count += 1
            return None
        except Fault as fault:
            self.add(fault)
            return None

    def warn(self, fault):
        """Tells a warning on standard error, one of the first."""
        self.warnings += 1
        if self.warnings <= MOST:
            print(fault.text("warning"), file=sys.stderr)
        if self.warnings == MOST:
            print("claimdesk: there may be more; %d warnings are told at most" % MOST, file=sys.stderr)

    def end(self):
        """Ends the command if there is a mistake."""
        if self.faults:
            raise Faults(self.faults)


class Untold(Fault):
    """What follows from a mistake that is told already."""
