"""lineup play: steps through a sheet in the terminal, by number, at random or from a record, and shows what the places hold as bars."""
import shlex
import sys

from lineup import core, explain, gauge, inputs, logfile, outputs, pair, streams
from lineup.commands.run import fired
from lineup.faults import FIRINGS
from lineup.report import Report, plural
from lineup.trouble import Trouble, suggestion
from lineup.visible import inline, quoted
from lineup.walker import Walker

SUMMARY = "step through a sheet in the terminal, with the places as bars"
EXAMPLE = "lineup play samples/jetty/jetty.net samples/jetty/may.sheet --random 12 --seed 7 -o record.log"
OUTPUT = "write the record to FILE when play ends: a log, for --replay and for lineup replay"

HELP = {
    "NUMBER": "fire what is offered by that number; its name does, too",
    "(nothing)": "fire what is offered alone",
    "back [N]": "take back the last firing, or N",
    "reset": "take back all",
    "random [N]": "fire one at random, or N",
    "record": "list the firings so far",
    "save FILE": "write them as a log",
    "replay FILE": "begin again with those of a log",
    "quit": "end, as the end of the input does",
}


def arguments(parser):
    parser.add_argument("net", metavar="NET", help="a net, or a folder with net and sheet as words")
    parser.add_argument("sheet", metavar="SHEET", nargs="?", help="a sheet")
    parser.add_argument("--random", metavar="N", type=number, help="fire N at random and end, without asking")
    parser.add_argument("--seed", metavar="S", type=number, help="what chance starts from: the same seed fires the same")
    parser.add_argument("--replay", metavar="RECORD", help="begin with the firings of a record")


def number(told):
    if not told.isdecimal() or int(told) >= 2**32:
        raise Trouble(f"a number from 0 to 4,294,967,295 is expected, not {quoted(told)}")
    return int(told)


def main(args):
    both = pair.load(args.net, args.sheet)
    checked, bounds = [*both.ask(core.check, core.bounds), None][:2]
    if checked.number:
        return both.refusal(checked)
    both.agree(checked, bounds)
    if args.output:
        outputs.allowed(args.output, "marked")  # before anything is played that could not be written
    play = Play(both, bounds.out, args)
    refusal = play.replay(args.replay) if args.replay else None
    if refusal:
        return refusal
    if args.random is not None:
        play.at_random(args.random)
        play.show()
    else:
        play.session()
    return play.end(args.output)


class Play:
    def __init__(self, both, bounds, args):
        self.both, self.net, self.sheet, self.bounds = both, both.net.model, both.sheet.model, bounds
        self.walker, self.silent, self.drawn = Walker(self.sheet, args.seed), args.json, gauge.signs()
        self.line = 0

    def say(self, *lines):
        if not self.silent:
            streams.write("".join(f"{line}\n" for line in lines))

    # ---- a session

    def session(self):
        """Reads commands, a line each, until there are no more. Who types is told what is wrong; in a script it is trouble."""
        typed = sys.stdin is not None and sys.stdin.isatty()
        self.say(f"{inline(self.both.sheet.path)}: {plural(len(self.sheet.nodes), 'node')}, accepted; help lists the commands", gauge.key(self.drawn))
        self.show()
        while True:
            if typed and not self.silent:
                streams.write("> ")
            command = self.read()
            if command is None:
                return self.say(*[""] * typed)
            if not typed:
                self.say(f"> {inline(command)}")
            try:
                if self.obey(command):
                    return None
            except Trouble as trouble:
                if not typed:
                    raise Trouble(f"{trouble}", "standard input", self.line) from None
                self.say(f"  {trouble}")

    def read(self):
        """A line of the input, or nothing at its end."""
        try:
            data = sys.stdin.buffer.readline() if sys.stdin else b""
        except KeyboardInterrupt:
            return None
        except OSError as error:
            raise Trouble("cannot be read: " + (error.strerror or str(error)).lower(), "standard input") from None
        self.line += 1
        return data.decode("utf-8", "replace").strip() if data else None

    def obey(self, command):
        """Answers whether this was the end."""
        try:
            words = shlex.split(command)
        except ValueError as error:
            raise Trouble(f"{str(error).lower()} in {quoted(command)}") from None
        word, rest = (words[0], words[1:]) if words else ("", [])
        offered = self.walker.offered()
        if not words and len(offered) == 1:
            self.walker.fire(offered[0][0])
        elif not words:
            raise Trouble(f"{len(offered)} are offered: which one?")
        elif word.isdecimal() and not rest:
            self.walker.fire(self.by_number(word, offered))
        elif word in ("back", "b", "random", "r") and len(rest) <= 1:
            many = number(rest[0]) if rest else 1
            if word[0] == "r":
                self.at_random(many)
            else:
                self.walker.back(many)
        elif word == "reset" and not rest:
            self.walker.back(FIRINGS)
        elif word in ("save", "replay") and len(rest) == 1:
            return self.save(rest[0]) if word == "save" else self.again(rest[0])
        elif word == "record" and not rest:
            return self.say(*(f"  {line}" for line in self.record().splitlines()))
        elif word in ("help", "?") and not rest:
            return self.say(*(f"  {name:12} {what}" for name, what in HELP.items()))
        elif word in ("quit", "q") and not rest:
            return True
        elif command in self.net.transitions:
            self.walker.fire(self.by_name(command, offered))
        else:
            known = [*(name.split()[0] for name in HELP if name[0].islower()), "help", *self.net.transitions]
            raise Trouble(f"{quoted(command)} is no command" + (suggestion(command, known) or "; help lists them"))
        return self.show()

    def by_number(self, word, offered):
        if not 1 <= int(word) <= len(offered):
            raise Trouble(f"{word} is not offered: the numbers are 1 to {len(offered)}")
        return offered[int(word) - 1][0]

    def by_name(self, name, offered):
        t = self.net.transitions.index(name)
        if t not in dict(offered):
            raise Trouble(f"{name} is not offered: node {self.sheet.nodes[self.walker.node()]} offers {self.net.listed([t for t, _ in offered])}")
        return t

    def show(self):
        walker, node = self.walker, self.walker.node()
        waits = ", which waits" if node in self.sheet.awaits(self.net) else ""
        self.say("", f"after {plural(len(walker.fired), 'firing')} at node {self.sheet.nodes[node]}{waits}", *gauge.rows(self.net, walker.counts(), self.bounds, self.drawn))
        self.say(*(f"  {i}  {self.net.transitions[t]} -> {self.sheet.nodes[n]}" for i, (t, n) in enumerate(walker.offered(), 1)))

    def at_random(self, many):
        begin = len(self.walker.fired)
        if begin + many > FIRINGS:
            raise Trouble(f"{begin:,} firings and {many:,} more: a record may have {FIRINGS:,}")
        self.walker.at_random(many)
        self.say(f"{plural(many, 'firing')} at random, seed {self.walker.seed}:", *self.steps(begin))

    def steps(self, begin):
        walker = self.walker
        return [f"  {i + 1}  {self.net.transitions[walker.fired[i]]} -> {self.sheet.nodes[walker.stood[i + 1]]}" for i in range(begin, len(walker.fired))]

    # ---- records

    def record(self):
        return logfile.write(self.net, self.sheet, logfile.Log(self.walker.fired, self.walker.stood[1:]))

    def save(self, path):
        outputs.write(path, outputs.marked(self.record()))
        self.say(f"  written: {inline(path)}")

    def replay(self, path):
        """Stands where a record ends. The core follows it first; answers the report where it is refused."""
        log = inputs.log(path, self.both.net, self.both.sheet)
        answer = self.both.ask(lambda net, sheet: core.replay(net, sheet, log.words))[0]
        if answer.number:
            return self.both.refusal(answer, log=log)
        explain.agree(answer, self.both.net, self.both.sheet, log=log)
        self.walker.fired, self.walker.stood = list(log.model.firings), [0, *log.model.nodes]
        self.say(f"{inline(path)}: {plural(len(self.walker.fired), 'firing')} replayed", *self.steps(0))
        return None

    def again(self, path):
        refusal = self.replay(path)
        if refusal:
            raise Trouble("; ".join(line.strip() for line in refusal.lines[:2]))
        self.show()

    def end(self, output):
        """The core's run of all firings, which has to end where the walker stands."""
        record = self.walker.fired
        answer = self.both.ask(lambda net, sheet: core.run(net, sheet, record))[0]
        explain.agree(answer, self.both.net, self.both.sheet, record)
        ran = fired(self.both, record, answer)
        report = Report(accepted=True, seed=self.walker.seed, **{key: ran.data[key] for key in ("fired", "node", "counts", "steps")})
        report.say(f"{plural(len(record), 'firing')} to node {ran.data['node']}, which holds {self.net.held(self.walker.counts())}").quote(answer, whole=True)
        if output:
            outputs.write(output, outputs.marked(self.record()))
            report.data["written"] = output
            report.say(f"written: {inline(output)}")
        return report
