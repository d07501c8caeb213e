"""lineup page: one file for the browser with the verdict, the pictures, a walker through the sheet, a log with a slider, and reaction times."""
import copy

from lineup import core, explain, inputs, logfile, outputs, page, page_parts, page_tables, page_walker, pair, picture
from lineup.causes import likely
from lineup.commands import check, replay
from lineup.commands import times as reactions
from lineup.refusals import OF_NET, OF_WORDS
from lineup.report import REFUSED, Report, plural
from lineup.visible import inline
from lineup.words import log_words

SUMMARY = "write a page for the browser: verdict, pictures, a walker, a log, reaction times"
EXAMPLE = "lineup page samples/jetty/jetty.net samples/jetty/may.sheet samples/jetty/may.log -o may.html"
OUTPUT = "write to FILE, an .html; without -o, on standard output"

SHEET = "Yellow is where the walker stands, dashed what it can go to. At nodes with a double border it waits."
NET = "Circles are places, with what they hold; boxes are transitions, the green ones sources. Between those of one choice the plant decides."


def arguments(parser):
    parser.add_argument("net", metavar="NET", help="a net, or a folder with net and sheet as words, which no SHEET follows then")
    parser.add_argument("sheet", metavar="SHEET", nargs="?", help="a sheet")
    parser.add_argument("log", metavar="LOG", nargs="?", help="a log, played with a slider")
    parser.add_argument("--times", metavar="DURATIONS", help="durations, as lineup times reads them: the page shows the reaction times")


def main(args):
    if inputs.has_sheet(args.net) and args.log is None:
        args.sheet, args.log = None, args.sheet
    both = pair.load(args.net, args.sheet)
    told = Told(both, args.log and inputs.log(args.log, both.net, both.sheet), args.times and inputs.durations(args.times, both.net))
    report = Report(REFUSED if told.refused else 0, accepted=not told.refused)
    report.data.update(core=told.lines, page=told.page())
    if not args.output:
        return report.say(*report.data["page"].splitlines())
    outputs.write(args.output, report.data["page"])
    report.data["written"] = args.output
    report.say(f"written: {inline(args.output)}", *(f"  {title}: the page explains it" for title in told.refused))
    return report.say(*(f"  core: {line}" for line in told.lines))


class Told:
    """What the core answered, as the parts of a page. `refused` has the titles of what it refused: the sheet; or the log and the durations, one or both."""

    def __init__(self, both, log, times):
        self.both, self.refused, self.lines, self.parts, self.data = both, [], [], [], None
        self.files = [source.path for source in (both.net, both.sheet, log, times) if source]
        calls = [core.check, core.bounds]
        calls += [lambda net, sheet: core.replay(net, sheet, log.words)] if log else []
        calls += [lambda net, sheet: core.times(net, sheet, times.words)] if times else []
        checked, *rest = both.ask(*calls)
        self.lines.append(checked.line)
        if checked.number:
            self.refusal(checked)
        else:
            self.accepted(checked, rest[0], log and (log, rest[1]), times and (times, rest[-1]))

    def head(self):
        net, sheet = self.both.net, self.both.sheet
        verdict = self.verdict if self.data else self.refused[0].capitalize()
        return page_parts.head(page_parts.name_of(sheet), page_parts.name_of(net), verdict, bool(self.data), self.numbers if self.data else [])

    def page(self):
        title = f"{page_parts.name_of(self.both.sheet)}: {'accepted' if self.data else self.refused[0]}"
        return page.write(title, self.head(), self.parts, page_parts.foot(self.lines, self.files), self.data)

    # ---- a sheet that is refused

    def refusal(self, answer):
        net, sheet = self.both.net, self.both.sheet
        found = explain.explain(answer, net, sheet)
        self.refused.append(found.title())
        self.parts += page_parts.refusal("why", "Why it is refused", found, answer, likely(net, sheet) if answer.number in OF_NET | OF_WORDS else [])
        if sheet.model:
            shown = picture.of_sheet(net.model, sheet.model, found.marks)
            self.parts += page_parts.drawn("sheet", "The sheet", shown, f"the sheet, in which is marked what is {found.title()}", "Red is what is refused. At nodes with a double border it waits.")
        if net.model:
            self.parts += page_parts.drawn("net", "The net", picture.of_net(net.model, None, found.marks), "the net", NET)

    # ---- a sheet that is accepted

    def accepted(self, checked, bounds, log, times):
        both, net, sheet = self.both, self.both.net.model, self.both.sheet.model
        both.agree(checked, bounds)
        shown = check.accepted(both, checked, bounds)
        self.lines.append(bounds.whole)
        self.verdict = "Accepted"
        self.numbers = [("nodes", shown.data["nodes"]), ("arcs", shown.data["arcs"]), ("await nodes", shown.data["awaits"]), ("places", len(net.places)), ("transitions", len(net.transitions))]
        below = []
        scales = [page_walker.scale(net, bounds.out, p) for p in range(len(net.places))]
        played = self.log(*log, scales, below) if log else None
        if times:
            self.times(*times, below)
        self.data = page_walker.data(net, sheet, bounds.out, played)
        self.parts += page_walker.walker(net, sheet, bounds.out, played)
        waits = plural(len(sheet.awaits(net)), "node") + " with a double border: there it waits"
        self.parts += page_parts.drawn("sheet", "The sheet", picture.of_sheet(net, sheet), f"the sheet: {len(sheet.nodes)} nodes and the arrows between them; {waits}", SHEET)
        self.parts += page_parts.drawn("net", "The net", picture.of_net(net, bounds.out), f"the net: {len(net.places)} places and {len(net.transitions)} transitions", NET)
        self.parts += below + page_tables.node_by_node(net, sheet)

    def log(self, log, answer, scales, below):
        """The log's part; answers the log where it can be played."""
        both = self.both
        self.lines.append(answer.whole)
        if answer.number:
            found = explain.explain(answer, both.net, both.sheet, log=log)
            self.refused.append(f"the log {found.title()}")
            below += page_parts.refusal("log", f"The log is {found.title()}", found, answer)
            return self.up_to(log, answer.index) if answer.kind == "record" else None
        explain.agree(answer, both.net, both.sheet, log=log)
        sums = replay.told(both, log, answer).data
        end = log.model.nodes[-1] if log.model.nodes else 0
        sums["held"] = [both.sheet.model.counts[end].get(p, 0) for p in range(len(both.net.model.places))]
        below += page_tables.logged(both.net.model, both.sheet.model, log, sums, scales)
        return log

    def up_to(self, log, many):
        """The firings before a refused one, which the core follows."""
        before = copy.copy(log)
        before.model = logfile.Log(log.model.firings[:many], log.model.nodes[:many])
        before.words = log_words(before.model)
        answer = self.both.ask(lambda net, sheet: core.replay(net, sheet, before.words))[0]
        explain.agree(answer, self.both.net, self.both.sheet, log=before)
        return before

    def times(self, times, answer, below):
        both = self.both
        self.lines.append(answer.line)
        if answer.number:
            found = explain.explain(answer, both.net, both.sheet, times=times)
            self.refused.append(f"the durations {found.title()}")
            below += page_parts.refusal("times", f"Reaction times: {found.title()}", found, answer)
            return
        explain.agree(answer, both.net, both.sheet, times=times)
        below += page_tables.times(page_parts.name_of(times), reactions.told(both, times, answer, None).data["reactions"])
