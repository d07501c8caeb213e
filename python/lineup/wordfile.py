"""Files of words as they are read: decimal with remarks, or four bytes each."""
import re
import struct

from lineup.tokens import LARGEST_WORD
from lineup.trouble import Trouble
from lineup.visible import quoted


def decimal(path, text):
    """The words of a text and the line and column of each."""
    words, where = [], []
    for number, line in enumerate(text.split("\n"), 1):
        for found in re.finditer(r"\S+", line.split("#")[0]):
            digits, column = found.group(), found.start() + 1
            if not re.fullmatch("[0-9]+", digits):
                raise Trouble(f"{quoted(digits)} is no decimal word", path, number, column)
            if len(digits.lstrip("0")) > 10 or int(digits) > LARGEST_WORD:
                raise Trouble(f"{quoted(digits)} is above 4,294,967,295, the greatest word", path, number, column)
            words.append(int(digits))
            where.append((number, column))
    return words, where


def binary(data, most):
    """The words of bytes, the least significant byte first, and how many bytes are over. Of longer data the first words alone are read."""
    data = data[: 4 * most]
    whole = len(data) // 4
    return list(struct.unpack(f"<{whole}I", data[: 4 * whole])), len(data) % 4


def packed(words):
    return struct.pack(f"<{len(words)}I", *words)
