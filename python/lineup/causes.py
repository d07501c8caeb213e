"""Likely causes of words that make no sense. Each is a guess that the core has confirmed: read in the other way, it accepts the files."""
from lineup import core
from lineup.tokens import LARGEST_WORD
from lineup.words import NET_WORDS, SHEET_WORDS


def likely(net, sheet):
    """Sentences for a refusal by 1 to 9; none where the files are no words, or no guess is right."""
    if not sheet or not (net.is_words() and sheet.is_words()):
        return []
    guesses = [("net and sheet are swapped", sheet.words, net.words)]
    if "bytes" in (net.form, sheet.form):
        turned = [turned_round(source) for source in (net, sheet)]
        guesses.append(("the bytes of each word stand the wrong way round: the least significant comes first", *turned))
        decimal = [as_decimal(source) for source in (net, sheet)]
        if None not in decimal:
            guesses.append(("a file of decimal words is called .bin: its suffix should be .txt", *decimal))
    answers = core.ask(*(core.check(one, other) for _, one, other in guesses))
    return [f"likely: {cause}; that way the core accepts them: {answer.line}" for (cause, *_), answer in zip(guesses, answers) if not answer.number]


def turned_round(source):
    """Words of bytes with the most significant byte first."""
    if source.form != "bytes":
        return source.words
    return [int.from_bytes(word.to_bytes(4, "little"), "big") for word in source.words]


def as_decimal(source):
    """The words of a text, whatever its suffix; nothing where it is none."""
    if source.form != "bytes":
        return source.words
    text = source.data.decode("ascii", "replace")
    parts = [part for line in text.split("\n") for part in line.split("#")[0].split()]
    if not all(part.isascii() and part.isdigit() and len(part) <= 10 and int(part) <= LARGEST_WORD for part in parts):
        return None
    return [int(part) for part in parts][: NET_WORDS + SHEET_WORDS]
