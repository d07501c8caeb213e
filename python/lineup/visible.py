"""What a terminal would obey or hide is shown as an escape, wherever a text goes out."""
import re

# control characters, direction marks, characters without width, and halves of surrogate pairs
HIDDEN = re.compile(
    "[\x00-\x09\x0b-\x1f\x7f-\x9f\xad\u061c\u115f\u1160\u17b4\u17b5\u180b-\u180e\u200b-\u200f\u2028-\u202e\u2060-\u206f"
    "\u3164\ud800-\udfff\ufe00-\ufe0f\ufeff\uffa0\ufff0-\uffff\U0001d173-\U0001d17a\U000e0000-\U000effff]"
)


def escape(character):
    code = ord(character)
    if code < 0x100:
        return f"\\x{code:02x}"
    return f"\\u{code:04x}" if code < 0x10000 else f"\\U{code:08x}"


def visible(text):
    """The text with its hidden characters as escapes; ends of lines stay."""
    return HIDDEN.sub(lambda found: escape(found.group()), text)


def inline(text):
    """The same for what must not begin a line of its own, as a file's name."""
    return visible(text).replace("\n", "\\n")


def quoted(text, most=60):
    """A text from outside inside a message."""
    shown = inline(text)
    return f"'{shown}'" if len(shown) <= most else f"'{shown[:most]}..'"
