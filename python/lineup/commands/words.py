"""lineup words: nets and sheets as the words that the core reads."""
import os

from lineup import files, names, outputs, wordtext
from lineup.pair import readable
from lineup.report import Report
from lineup.trouble import Trouble
from lineup.visible import inline
from lineup.wordfile import packed

SUMMARY = "write a net, and a sheet, as words for ./run and the core"
EXAMPLE = "lineup words samples/jetty/jetty.net samples/jetty/may.sheet -o jetty-words"
OUTPUT = "write net.txt, sheet.txt and names.txt into the folder FILE, which is made if it is missing; the same in the other form is removed there"


def arguments(parser):
    parser.add_argument("net", metavar="NET", help="a net, or a folder with net and sheet as words")
    parser.add_argument("sheet", metavar="SHEET", nargs="?", help="a sheet")
    parser.add_argument("--binary", action="store_true", help="with -o: words of four bytes, net.bin and sheet.bin")


def main(args):
    both, refusal = readable(args.net, args.sheet)
    if refusal:
        return refusal
    found = {"net": both.net.words}
    if both.sheet:
        found["sheet"] = both.sheet.words
    report = Report(**found)
    if not args.output:
        return report.say(*(f"{name} {' '.join(map(str, words))}" for name, words in found.items()))
    written = file_contents(both, args.binary)
    folder(args.output)
    report.data["written"] = [os.path.join(args.output, name) for name in written]
    report.data["removed"] = older(args.output, written)
    for path in report.data["written"] + report.data["removed"]:
        outputs.allowed(path, "words")
    for path, data in zip(report.data["written"], written.values()):
        outputs.write(path, data)
        report.say(f"written: {inline(path)}")
    for path in report.data["removed"]:
        files.remove(path)
        report.say(f"removed: {inline(path)}")
    return report


def older(output, written):
    """The files of the folder that have in the other form what is written: left there, they would be read instead, or doubted."""
    other = {".txt": ".bin", ".bin": ".txt"}
    paths = [os.path.join(output, stem + other[suffix]) for stem, suffix in map(os.path.splitext, written) if stem != "names"]
    return [path for path in paths if os.path.lexists(path)]


def file_contents(both, binary):
    net, sheet = both.net.model, both.sheet and both.sheet.model
    if binary:
        found = {"net.bin": packed(both.net.words)}
        found.update({"sheet.bin": packed(both.sheet.words)} if sheet else {})
    else:
        found = {"net.txt": outputs.marked(wordtext.net_text(net))}
        found.update({"sheet.txt": outputs.marked(wordtext.sheet_text(net, sheet))} if sheet else {})
    return {**found, "names.txt": outputs.marked(names.text(net, sheet))}


def folder(path):
    try:
        os.makedirs(path, exist_ok=True)
    except OSError as error:
        raise Trouble("no folder can be made: " + files.reason(error), path) from None
