"""lineup draw: a picture of a schedule or of a net."""
import os
import shutil
import subprocess
from collections import Counter
from textwrap import wrap

from lineup import core, dot, explain, highlight, inputs, outputs, pair, picture, svg
from lineup.commands import compare
from lineup.commands.run import numbers
from lineup.looks import END, LESS, MORE, RUN
from lineup.report import REFUSED, Report, plural
from lineup.trouble import Trouble
from lineup.visible import inline

SUMMARY = "draw a schedule, or a net, as dot or SVG; with graphviz also as PNG or PDF"
EXAMPLE = "lineup draw samples/jetty/jetty.net samples/jetty/may.sheet --run berth line-up fails -o jetty.svg"
OUTPUT = "write to FILE, by its suffix: .dot, .svg, or with graphviz .png and .pdf; without -o, dot on standard output"

WIDE = 120  # characters of a line below a picture


def arguments(parser):
    parser.add_argument("net", metavar="NET", help="a net, or a folder with net and sheet as words")
    parser.add_argument("sheet", metavar="SHEET", nargs="?", help="a sheet: it is drawn, not the net")
    parser.add_argument("--net", dest="of_net", action="store_true", help="draw the net also where there is a sheet, with the sheet's bounds")
    shown = parser.add_mutually_exclusive_group()
    shown.add_argument("--run", metavar="TRANSITION", nargs="+", help="mark what these firings pass, from the first node")
    shown.add_argument("--log", metavar="LOG", help="mark what the firings of a log pass")
    shown.add_argument("--diff", metavar="OTHER", help="mark what only this sheet and only another one allows")
    way = parser.add_mutually_exclusive_group()
    way.add_argument("--right", action="store_true", help="let the picture go to the right, as it does without being told")
    way.add_argument("--down", action="store_true", help="let it go downwards")
    parser.add_argument("--width", metavar="N", type=int, help="of an .svg: fold a picture that is wider, and break its texts")
    parser.add_argument("--title", metavar="TEXT", help="write this above it, not the name of the sheet or the net")
    parser.add_argument("--legend", action="store_true", help="of an .svg: explain the signs below it")
    parser.add_argument("--graphviz", action="store_true", help="have graphviz lay out an .svg, too")


def main(args):
    if args.width is not None and not 200 <= args.width <= 100_000:
        raise Trouble("--width: a number from 200 to 100000 is expected")
    both, refusal = pair.readable(args.net, args.sheet)
    if refusal:
        return refusal
    if not both.sheet and (args.run or args.log or args.diff):
        raise Trouble("a sheet is missing: --run, --log and --diff are about one", args.net)
    quoted = both.ask(core.check, core.bounds) if both.sheet else both.ask(core.net_check)
    refused, bounds, shown = explain.explain(quoted[0], both.net, both.sheet) if quoted[0].number else None, None, None
    if both.sheet and not refused:
        both.agree(*quoted)
        bounds, shown = quoted[1].out, marked(args, both)
    if shown and shown.trouble:
        return shown.trouble
    quoted[1:] = [shown.answer] if shown else []
    refused = refused or shown and shown.refused
    drawn = painted(both, args.of_net, bounds, refused, shown)
    drawn.title = titled(both, args, shown) if args.title is None else inline(args.title)
    report = Report(REFUSED if refused or shown and shown.differs else 0, accepted=not refused)
    text = dot.write(drawn, args.down)
    report.data["dot"] = text
    if not args.output:
        remarks = [f"// {line}" for line, _ in drawn.caption] + [f"// core: {answer.line}" for answer in quoted]
        return report.say(*remarks, *text.splitlines())
    write(args, drawn, text)
    report.data["written"] = args.output
    report.say(f"written: {inline(args.output)}")
    if refused:
        report.say(f"  {refused.title()}: {'the picture tells why' if shown else 'lineup check explains it'}")
    return report.quote(*quoted)


# ---- what is marked


class Shown:
    """Firings of an accepted sheet as far as the core follows them, or another sheet; `words` say in the legend what is marked, `lines` stand below."""

    def __init__(self, answer, firings=(), other=None, refused=None):
        self.answer, self.firings, self.other, self.refused = answer, list(firings), other, refused
        self.trouble, self.differs, self.words, self.lines = None, False, {}, []


def marked(args, both):
    """What is asked to be marked, by the core's answer; nothing where nothing is."""
    if args.diff:
        return another(both, inputs.sheet(args.diff, both.net))
    if not args.run and not args.log:
        return None
    record = numbers(both, args.run) if args.run else None
    log = inputs.log(args.log, both.net, both.sheet) if args.log else None
    answer = both.ask(lambda net, sheet: core.run(net, sheet, record) if log is None else core.replay(net, sheet, log.words))[0]
    refused = explain.explain(answer, both.net, both.sheet, record, log) if answer.number else None
    if not refused:
        explain.agree(answer, both.net, both.sheet, record, log)
    firings = record if log is None else log.model.firings if log.model else []
    shown = Shown(answer, firings[: answer.index if refused else None] if not refused or answer.kind == "record" else [], refused=refused)
    what = "the run" if log is None else f"the log {inline(os.path.basename(log.path))}"
    turns = f"fired by {what}" + ("" if args.of_net else ", with its turns")
    shown.words = {RUN: turns, END: f"where {what} ends" if not refused else "the last node that it reaches"}
    shown.lines = [f"{what}: {plural(len(shown.firings), 'firing')}"]
    return shown


def another(both, sheet):
    """The other sheet, by the core's comparison; the report where it is refused."""
    pairs = [both, pair.Pair(both.net, sheet)]
    refusal, answer, found = compare.judged(pairs)
    shown = Shown(answer, other=sheet)
    shown.trouble, shown.differs = refusal, found is not None
    names = [inline(os.path.basename(one.sheet.path)) for one in pairs]
    shown.words = {LESS: f"only in {names[0]}", MORE: f"only in {names[1]}"}
    shown.lines = [f"{names[0]} and {names[1]} {'do not allow' if found else 'allow'} the same firings"]
    return shown


def painted(both, of_net, bounds, refused, shown=None):
    """The picture with what is marked in it."""
    net, sheet = both.net.model, both.sheet and both.sheet.model
    marks = refused.marks if refused else {}
    if of_net or not sheet:
        drawn = picture.of_net(net, bounds, marks, Counter(shown.firings) if shown else None)
    elif shown and shown.other:
        drawn = highlight.of_both(net, sheet, shown.other.model)
    else:
        drawn = picture.of_sheet(net, sheet, marks)
        if shown:
            highlight.show_run(drawn, net, sheet, shown.firings, END)
    if bounds and sheet and not of_net:
        told = "bounds: " + ", ".join(f"{name} <= {bound}" for name, bound in zip(net.places, bounds))
        drawn.caption += [(line, "") for line in wrap(told, WIDE)]
    if shown:
        drawn.words = shown.words
        drawn.caption += [(line, "") for line in shown.lines]
    if refused:
        drawn.caption += [(line, "fault") for told in [refused.title(), *refused.lines] for line in wrap(told, WIDE)]
    return drawn


def titled(both, args, shown):
    """The names of what is drawn, as far as it has any."""
    sheets = [source.model.name for source in [both.sheet, shown and shown.other] if source and source.model.name and not (args.of_net or not both.sheet)]
    net = both.net.model.name
    return " and ".join(sheets) + (f" of {net}" if sheets and net else "") or (net if args.of_net or not both.sheet else "")


# ---- writing


def write(args, drawn, text):
    """By the suffix. SVG is laid out here, so that it is the same everywhere, unless graphviz is asked for."""
    kind = os.path.splitext(args.output)[1].lower()
    if kind in (".dot", ".gv"):
        outputs.write(args.output, text)
    elif kind == ".svg" and not args.graphviz:
        outputs.write(args.output, svg.write(drawn, args.down, args.width, args.legend))
    elif kind in (".svg", ".png", ".pdf"):
        outputs.write(args.output, laid_out(text, kind[1:]))
    else:
        raise Trouble("the suffix tells the form, and has to be .dot, .svg, .png or .pdf", args.output)


def laid_out(text, kind):
    program = shutil.which("dot")
    if not program:
        raise Trouble(f"{kind} needs graphviz, and its program dot is not on the path; .svg and .dot do without")
    done = subprocess.run([program, f"-T{kind}"], input=text.encode(), capture_output=True, check=False)
    if done.returncode != 0:
        raise Trouble("graphviz failed: " + inline(done.stderr.decode(errors="replace").strip()))
    return done.stdout
