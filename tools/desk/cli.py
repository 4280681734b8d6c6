"""The command line of claimdesk."""
import argparse
import os
import shutil
import signal
import sys
import tempfile

from . import board, book, book_text, checking, claims_text, files, forecast, layout, message_text, messages, running
from .errors import Fault, Mistakes
from .names import Names
from .sources import Source

PIECE = 1 << 16
BROKEN_PIPE = 141
INTERRUPTED = 130
TERMINATED = 143


class Terminated(BaseException):
    """The signal that asks the desk to end; what it has begun is taken away on the way out."""


def on_terminate(number, frame):
    raise Terminated


def pieces(file):
    """A file's bytes, piece by piece."""
    while piece := file.read(PIECE):
        yield piece


def book_make(args):
    no_terminal(args, "a book.dat is bytes", "-o FILE, or > book.dat")
    found = Mistakes()
    made = book.make(Source(args.source), found)
    found.end()
    files.write(args.output, [made.bytes()], made.paths)


def no_terminal(args, what, allowed):
    """Refuses to write bytes to a terminal."""
    if args.output in (None, files.STANDARD) and sys.stdout.isatty():
        raise Fault("standard output", "is a terminal, and %s" % what, allowed)


def book_show(args):
    given = book.read_bytes(args.file)
    files.write(args.output, [book_text.show(given).encode("utf-8")], given.paths)


def messages_make(args):
    no_terminal(args, "the records are bytes", "-o FILE, or a pipe to claimrun")
    found = Mistakes()
    source = None if messages.is_csv(args.source) else Source(args.source)
    names, paths = names_for(args, source, found)
    sequence, read_paths = messages.sequence(args.source, found, source)
    progress = running.Progress()
    with tempfile.TemporaryFile() as file:
        messages.make_into(file, sequence, names, found, lambda count: progress.show("%d messages made", count))
        progress.end()
        found.end()
        file.seek(0)
        files.write(args.output, pieces(file), paths + read_paths)


def names_for(args, source, found):
    """The names that messages may use: those of --book, else those of the book in the same source."""
    if args.book is not None:
        given = book.read(args.book)
        return given.names, given.paths
    if source is None:
        return Names(), []
    if any(source.top.has(key) for key in ("accounts", "security", "book")):
        given = book.make(source, found, needs_day=False)
        return given.names, given.paths
    return Names(), []


def messages_show(args):
    show = {"toml": message_text.show_toml, "csv": message_text.show_csv}[args.format]
    with spooled(args.file) as file:
        text = (piece.encode("utf-8") for piece in show(layout.messages(file)))
        files.write(args.output, text, [args.file] if args.file else [])


def spooled(path):
    """A file that can be read twice; standard input where no path is given, or where it is -."""
    if path is not None and path != files.STANDARD:
        try:
            file = open(path, "rb")
        except OSError as error:
            raise files.trouble(path, error) from None
        if file.seekable():
            return file
    else:
        file = sys.stdin.buffer
    copy = tempfile.TemporaryFile()
    shutil.copyfileobj(file, copy)
    copy.seek(0)
    return copy


def claims_show(args):
    """A failed check is told once the records are shown; a file is not written then."""
    given = book.read(args.book) if args.book is not None else None
    name = files.shown(args.file or files.STANDARD)
    with spooled(args.file) as output:
        fault = messages_fault(args.messages, output, name)
        if fault is not None and args.output not in (None, files.STANDARD):
            raise fault
        paths = [path for path in (args.file, args.messages) if path] + (given.paths if given else [])
        view = view_for(args)
        files.write(args.output, claims_text.show(args.format, output, name, given, None if fault else calls_of(args.messages), view=view), paths)
    if fault is not None:
        raise fault
    tell(view)


def calls_of(path):
    """What starts the messages of a file from the first; None where no file is given, or where it can be read only once."""
    if path is None or path == files.STANDARD or not os.path.isfile(path):
        return None

    def start():
        with open(path, "rb") as file:
            yield from layout.messages(file)

    return start


def view_for(args):
    """How records are shown: to a terminal in its width, with colour unless NO_COLOR is set."""
    terminal = args.output in (None, files.STANDARD) and sys.stdout.isatty()
    return claims_text.View(shutil.get_terminal_size((100, 24)).columns if terminal else None,
                            terminal and not os.environ.get("NO_COLOR"), args.only)


def tell(view):
    """Tells on standard error how many messages were refused."""
    if view.words():
        print("claimdesk: " + view.words(), file=sys.stderr)


def messages_fault(path, output, name):
    """What is wrong with the output as the answers to a file of messages; None where nothing is, or where no file is given."""
    if path is None:
        return None
    with spooled(path) as sent:
        try:
            checking.check(layout.messages(sent), output, name)
        except Fault as fault:
            return fault
    return None


def claims_check(args):
    with spooled(args.messages) as sent, spooled(args.claims) as output:
        found = checking.check(layout.messages(sent), output, files.shown(args.claims))
    files.write(args.output, [(found.words() + "\n").encode("utf-8")], [args.messages, args.claims])


def check(args):
    """Judges what a source holds, and runs nothing."""
    found = Mistakes()
    source = None if messages.is_csv(args.source) else Source(args.source)
    held, names = judge_book(args, source, found)
    if source is None or source.top.has("message") or source.top.has("messages"):
        count = count_messages(args.source, source, names, found)
        held.append("%s message%s" % (format(count, ","), "" if count == 1 else "s"))
    found.end()
    files.write(args.output, [("%s: no mistakes in %s\n" % (files.shown(args.source), " and ".join(held))).encode("utf-8")], [args.source])


def judge_book(args, source, found):
    """Judges the book and the pair of a source; what it holds of them in words, and the names that its messages may use. A source of
    messages alone holds neither, and has the names of --book."""
    has = source.top.has if source is not None else lambda key: key == "message"
    if not any(map(has, book.KEYS + ("book", "transfer"))) and (has("message") or has("messages")):
        return [], book.read(args.book).names if args.book is not None else Names()
    made = book.make(source, found, needs_day=not has("transfer"))
    if has("transfer"):
        board.sides_of(source, made, found)
    return ["the book"] + ["two transfers"] * has("transfer"), made.names


def count_messages(path, source, names, found):
    """How many messages a source makes."""
    with tempfile.TemporaryFile() as file:
        messages.make_into(file, messages.sequence(path, found, source)[0], names, found)
        file.seek(0)
        return sum(1 for _ in layout.messages(file))


def run(args):
    found = Mistakes()
    source = Source(args.source)
    made = book.make(source, found)
    sequence, paths = messages.sequence(args.source, found, source)
    progress = running.Progress()
    with tempfile.TemporaryDirectory(prefix="claimdesk-") as folder:
        work = running.Run(args.claimrun, folder, made, progress)
        try:
            work.messages(sequence, found)
            found.end()
            work.work()
            if args.output in (None, files.STANDARD) and sys.stdout.isatty():
                progress.end()
            with work.output() as output:
                view = view_for(args)
                shown = claims_text.show(args.format, output, "claimrun's output", made, work.calls,
                                         lambda count: progress.show("%d records shown", count), view)
                files.write(args.output, shown, made.paths + paths)
            progress.end()
            tell(view)
        finally:
            progress.end()


def board_make(args):
    found = Mistakes()
    source = Source(args.source)
    made = book.make(source, found, needs_day=False)
    page = board.page(source, made, args.claimrun, found)
    files.write(args.output, [page.encode("utf-8")], made.paths)


def forecast_show(args):
    given = book.read(args.book) if args.book is not None else None
    its_names = given.names if given else Names()
    account, day = forecast.wanted(args.account, args.date, its_names)
    call = forecast.library().forecast
    view = claims_text.View()
    cents = forecast.figures(call, files.read_bytes(args.claims), files.shown(args.claims), account, day, view)
    files.write(args.output, [forecast.show(args.format, account, day, cents, its_names)], [args.claims] + (given.paths if given else []))
    tell(view)


def version_show(args):
    files.write(None, [("claimdesk %s\n" % running.version()).encode("utf-8")])


class Alone(argparse.Action):
    """An option that is worked only where it stands alone."""

    def __call__(self, parser, *words):
        parser.error("%s stands alone" % self.option_strings[0])


def parser():
    """What the command line may say."""
    top = argparse.ArgumentParser(prog="claimdesk", description="Makes claimrun's inputs from text and shows its "
                                  "records. Bad input ends it with status 1, wrong usage with 2.")
    top.add_argument("--version", action=Alone, nargs=0, help="show the version number")
    groups = top.add_subparsers(required=True, metavar="COMMAND")

    def command(group, name, work, words, output="write to this file; without it, or with -, to standard output"):
        made = group.add_parser(name, help=words, description=words)
        made.set_defaults(work=work)
        made.add_argument("-o", "--output", metavar="FILE", help=output, required=work is board_make)
        return made

    def pair(name, words):
        return groups.add_parser(name, help=words, description=words).add_subparsers(required=True, metavar="COMMAND")

    group = pair("book", "make book.dat from text, or show one as text")
    made = command(group, "make", book_make, "make book.dat from a TOML source")
    made.add_argument("source", metavar="SOURCE.toml")
    made = command(group, "show", book_show, "show a book.dat as a source that makes the same bytes")
    made.add_argument("file", metavar="book.dat")
    group = pair("messages", "make message records from text, or show them as text")
    made = command(group, "make", messages_make, "make message records from a TOML or CSV source")
    made.add_argument("source", metavar="SOURCE.toml|SOURCE.csv")
    made.add_argument("--book", metavar="SOURCE.toml", help="take the names of accounts and securities from this source")
    made = command(group, "show", messages_show, "show message records as a source that makes the same bytes")
    made.add_argument("file", metavar="FILE", nargs="?", help="records (standard input)")
    made.add_argument("--format", choices=("toml", "csv"), default="toml")
    group = pair("claims", "show claimrun's output, or check it against the messages")
    made = command(group, "show", claims_show, "show the claims and answers that claimrun wrote")
    made.add_argument("file", metavar="FILE", nargs="?", help="claimrun's output (standard input)")
    made.add_argument("--book", metavar="book.dat|SOURCE.toml", help="take Beneficiary Dates and names from this book")
    made.add_argument("--messages", metavar="FILE", help="fail where the output does not answer these message records")
    made.add_argument("--format", choices=claims_text.FORMATS, default="text")
    made.add_argument("--only", choices=claims_text.ONLY, help="show these records alone")
    made = command(group, "check", claims_check, "see that claimrun's output answers each message, and is not cut")
    made.add_argument("messages", metavar="MESSAGES", help="the message records that were sent")
    made.add_argument("claims", metavar="CLAIMS", help="claimrun's output")
    made = command(groups, "check", check, "judge a source, and run nothing")
    made.add_argument("source", metavar="SOURCE.toml|SOURCE.csv")
    made.add_argument("--book", metavar="SOURCE.toml", help="for messages alone: take the names from this source")
    made = command(groups, "run", run, "make book and messages, run claimrun and show its claims")
    made.add_argument("source", metavar="SOURCE.toml")
    made.add_argument("--format", choices=claims_text.FORMATS, default="text")
    made.add_argument("--only", choices=claims_text.ONLY, help="show these records alone")
    made.add_argument("--claimrun", metavar="PATH", help="the program, where it is not the one built or installed with the desk")
    made = command(groups, "forecast", forecast_show, "show the cash that an account pays and receives on a release date, by the library")
    made.add_argument("claims", metavar="CLAIMS", help="claimrun's output, or claims alone")
    made.add_argument("--account", metavar="ACCOUNT", required=True, help="its number, or its name in the source of --book")
    made.add_argument("--date", metavar="DATE", required=True, help="the release date, such as 2023-04-17")
    made.add_argument("--book", metavar="SOURCE.toml", help="take the names of accounts from this source")
    made.add_argument("--format", choices=claims_text.FORMATS, default="text")
    made = command(groups, "board", board_make, "draw two transfers side by side on one page", "the page to write")
    made.add_argument("source", metavar="PAIR.toml")
    made.add_argument("--claimrun", metavar="PATH", help="the program, where it is not the one built or installed with the desk")
    return top


def main(argv=None):
    """Works the command line and gives the exit status."""
    argv = sys.argv[1:] if argv is None else argv
    args = argparse.Namespace(work=version_show) if argv == ["--version"] else parser().parse_args(argv)
    before = signal.signal(signal.SIGTERM, on_terminate)
    try:
        return status_of(args)
    except Terminated:
        return TERMINATED
    finally:
        signal.signal(signal.SIGTERM, before)


def status_of(args):
    """Works a command and gives the exit status."""
    try:
        args.work(args)
        return 0
    except Fault as fault:
        print(fault, file=sys.stderr)
        return 1
    except BrokenPipeError:
        os.dup2(os.open(os.devnull, os.O_WRONLY), sys.stdout.fileno())
        return BROKEN_PIPE
    except OSError as error:
        print(files.trouble(error.filename or "standard output", error), file=sys.stderr)
        os.dup2(os.open(os.devnull, os.O_WRONLY), sys.stdout.fileno())
        return 1
    except KeyboardInterrupt:
        return INTERRUPTED
