"""lineup explain: what a refusal means at the plant, and what to do about it, by its number or its word."""
from lineup.refusals import NO_COUNTS, OF_COMPOSING, OF_LOG, OF_NET, OF_PROGRAMS, OF_RECORD, OF_TIMES, OF_WORDS, REFUSALS
from lineup.report import Report
from lineup.trouble import Trouble, suggestion
from lineup.visible import quoted

SUMMARY = "tell what a refusal means and what to do, by its number"
EXAMPLE = "lineup explain 15"

ABOUT = [
    (OF_NET, "about the net, with every command that reads one"),
    (OF_WORDS, "about the words of a sheet, before anything is asked of what they say"),
    (OF_RECORD, "about a list of firings or a log, with run and replay"),
    (OF_LOG, "about a log, with replay"),
    ({NO_COUNTS}, "about a sheet that is mended, with mend"),
    (OF_COMPOSING, "about sheets that are composed, with compose"),
    (OF_TIMES, "about durations, with times"),
    (OF_PROGRAMS, "only for programs that call the core themselves"),
]


def arguments(parser):
    parser.add_argument("refusals", metavar="NUMBER", nargs="*", help="numbers of refusals, or their words, as 'wrong landing'; without any, all are listed")


def main(args):
    return told([number_of(word) for word in args.refusals])


def told(numbers):
    """The report on some refusals, or the list of all."""
    report = Report(refusals=[{"number": number, **REFUSALS[number]._asdict(), "about": about(number)} for number in numbers or sorted(REFUSALS)])
    if not numbers:
        wide = len(str(max(REFUSALS)))
        report.say(*(f"{number:{wide}}  {refusal.word}" for number, refusal in sorted(REFUSALS.items())))
    for number in numbers:
        word, meaning, remedy = REFUSALS[number]
        report.say(f"{number} {word}", f"  {meaning}", f"  to do: {remedy[0].lower()}{remedy[1:]}", f"  it is {about(number)}")
    return report


def about(number):
    return next((text for numbers, text in ABOUT if number in numbers), "about a sheet that can be read, with check and every command that checks")


def number_of(text):
    """The refusal that a number or a word means."""
    words = {refusal.word: number for number, refusal in REFUSALS.items()}
    if text in words:
        return words[text]
    if text.isascii() and text.isdigit():
        if len(text) < 4 and int(text) in REFUSALS:
            return int(text)
        raise Trouble("0 is no refusal: it says accepted" if text.strip("0") == "" else f"there is no refusal {text[:20]}: the numbers are 1 to {max(REFUSALS)}")
    raise Trouble(f"there is no refusal {quoted(text)}" + suggestion(text, words) + " (lineup explain lists them)")
