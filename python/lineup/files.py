"""Files as bytes and as text, read whole and written whole."""
import os
import tempfile

from lineup import streams
from lineup.trouble import Trouble, suggestion

LARGEST = 8_000_000  # far above the largest net or sheet in any form
seen = set()  # the files that the command has read


def read(path):
    """The bytes of a file, or of standard input."""
    try:
        data, status = streams.read(LARGEST + 1) if path == streams.INPUT else opened(path)
        seen.add(identity(status))
    except FileNotFoundError:
        raise Trouble("no such file" + neighbour(path), path) from None
    except (OSError, ValueError) as error:
        raise Trouble(reason(error), path) from None
    if len(data) > LARGEST:
        raise Trouble(f"longer than {LARGEST:,} bytes: this is no net and no sheet", path)
    return data


def opened(path):
    with open(path, "rb") as file:
        return file.read(LARGEST + 1), os.fstat(file.fileno())


def identity(status):
    """The same for every name of a file."""
    return status.st_dev, status.st_ino


def reason(error):
    return (getattr(error, "strerror", None) or str(error)).lower()


def neighbour(path):
    """A file of the same folder that may have been meant."""
    folder, name = os.path.split(path)
    try:
        return suggestion(name, os.listdir(folder or "."))
    except OSError:
        return ""


def text(path, data):
    """The bytes as text."""
    try:
        return data.decode("utf-8-sig")
    except UnicodeDecodeError as error:
        before = data[: error.start].decode("utf-8", "replace")
        line, column = before.count("\n") + 1, len(before) - (before.rfind("\n") + 1) + 1
        raise Trouble(f"the byte {data[error.start]} is no UTF-8 text", path, line, column) from None


def write(path, data):
    """Writes a file whole or not at all; what is no plain file, as a terminal, is written to directly."""
    data = data.encode("utf-8") if isinstance(data, str) else data
    try:
        if os.path.exists(path) and not os.path.isfile(path):
            with open(path, "wb") as file:
                file.write(data)
            return
        target = os.path.realpath(path)
        handle, beside = tempfile.mkstemp(dir=os.path.dirname(target))
        try:
            with os.fdopen(handle, "wb") as file:
                file.write(data)
            os.chmod(beside, 0o666 & ~umask())
            os.replace(beside, target)
        except BaseException:
            os.unlink(beside)
            raise
    except OSError as error:
        raise Trouble("cannot be written: " + reason(error), path) from None


def remove(path):
    try:
        os.unlink(path)
    except OSError as error:
        raise Trouble("cannot be removed: " + reason(error), path) from None


def umask():
    """The mask for new files, which can only be read by setting it."""
    mask = os.umask(0)
    os.umask(mask)
    return mask
