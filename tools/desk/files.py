"""Files: read whole with plain errors, and written so that nothing is left half written."""
import os
import stat
import sys
import tempfile

from .errors import Fault

STANDARD = "-"


def trouble(path, error):
    """A Fault for what the operating system said of a file."""
    words = {"FileNotFoundError": "there is no such file", "IsADirectoryError": "is a folder, not a file",
             "PermissionError": "no permission"}
    return Fault(path, words.get(type(error).__name__, error.strerror or str(error)))


def shown(path):
    """A path as it is told."""
    return "standard input" if path == STANDARD else path


def read_bytes(path):
    """The bytes of a file, or of standard input where the path is -."""
    if path == STANDARD:
        return sys.stdin.buffer.read()
    try:
        with open(path, "rb") as file:
            return file.read()
    except (OSError, ValueError) as error:
        raise trouble(path, error) if isinstance(error, OSError) else Fault(path, str(error))


def read_text(path):
    """The text of a UTF-8 file."""
    data = read_bytes(path)
    try:
        return data.decode("utf-8-sig")
    except UnicodeDecodeError as error:
        line = data.count(b"\n", 0, error.start) + 1
        raise Fault(shown(path), "byte %d is not UTF-8" % error.start, "text in UTF-8", line) from None


def apart(target, sources):
    """Refuses an output file that is one of the input files."""
    for source in sources:
        try:
            same = os.path.samefile(target, source)
        except OSError:
            same = False
        if same:
            raise Fault(target, "the output would overwrite the input %s" % source, "another file for -o")


def is_special(path):
    """Whether the path is there and is neither a file nor a folder (a device, a pipe)."""
    try:
        mode = os.stat(path).st_mode
    except OSError:
        return False
    return not (stat.S_ISREG(mode) or stat.S_ISDIR(mode))


def mode_for(path):
    """The mode of the file that is replaced, or that of a new file."""
    try:
        return stat.S_IMODE(os.stat(path).st_mode)
    except OSError:
        mask = os.umask(0)
        os.umask(mask)
        return 0o666 & ~mask


def write_parts(path, parts):
    """Writes pieces of bytes to a file, which changes only once all of them are there."""
    if is_special(path):
        with open(path, "wb") as file:
            file.writelines(parts)
        return
    path = os.path.realpath(path)
    if os.path.isdir(path):
        raise Fault(path, "is a folder, not a file")
    handle, name = tempfile.mkstemp(prefix=".claimdesk-", dir=os.path.dirname(path))
    try:
        with os.fdopen(handle, "wb") as file:
            file.writelines(parts)
        os.chmod(name, mode_for(path))
        os.replace(name, path)
    except BaseException:
        os.unlink(name)
        raise


def write(path, parts, sources=()):
    """Writes pieces of bytes to the file, or to standard output where path is None or -."""
    if path is None or path == STANDARD:
        for part in parts:
            sys.stdout.buffer.write(part)
        sys.stdout.buffer.flush()
        return
    apart(path, sources)
    try:
        write_parts(path, parts)
    except OSError as error:
        if isinstance(error, FileNotFoundError):
            raise Fault(path, "the folder of this file is not there") from None
        raise trouble(path, error) from None
