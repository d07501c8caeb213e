"""Play: a session by a pipe and at a terminal, by chance and from a record; what it shows is the core's, and what it saves can be replayed."""
import contextlib
import io
import json
import os
import pty
import re
import select
import subprocess
import tempfile
import time

from called import lineup
from lineup import core, gauge, inputs, netfile, walker
from lineup.home import HOME

JETTY = os.path.join(HOME, "samples", "jetty")
MAY = [os.path.join(JETTY, name) for name in ("jetty.net", "may.sheet")]
PROGRAM = os.path.join(HOME, "lineup")
NET = "pl {a long name, longer than any row has room for} (1000000000) <= 1000000000\npl b\ntr s -> b\ntr back b ->\n"
SHEET = "n: {a long name, longer than any row has room for}*1000000000\n  s -> m\nm: {a long name, longer than any row has room for}*1000000000 b\n  back -> n\n"


def run(tally):
    bars(tally)
    with tempfile.TemporaryDirectory() as folder:
        by_pipe(tally, folder)
        wrong(tally, folder)
        records(tally, folder)
        at_random(tally, folder)
        at_a_terminal(tally, folder)


def piped(folder, text, *arguments):
    done = subprocess.run([PROGRAM, "play", *arguments], input=text.encode(), cwd=folder, capture_output=True, check=False, env={**os.environ, "LC_ALL": "C.UTF-8"})
    return done.returncode, done.stdout.decode(), done.stderr.decode()


def bars(tally):
    """How much of a bar stands for how much; names are shortened, numbers never."""
    for count, whole, cells in ((0, 1, 0), (1, 1, 20), (1, 2, 10), (1, 1000, 1), (999, 1000, 19), (1000, 1000, 20), (0, 1000, 0)):
        tally.same(f"{count} of {whole}", gauge.cells(count, whole), cells)
    for encoding, signs in (("ascii", gauge.PLAIN), ("latin-1", gauge.PLAIN), ("utf-8", gauge.DRAWN)):
        with contextlib.redirect_stdout(io.TextIOWrapper(io.BytesIO(), encoding=encoding)):
            found = gauge.signs()
        tally.same(f"what a terminal of {encoding} can show", found, signs)
    net = netfile.read("x.net", NET + "pl c <= 10\n")
    rows = gauge.rows(net, {0: 10**9, 2: 3}, [10**9, 1, 5], gauge.PLAIN)
    tally.same("bars", rows, [
        "  a long name, longer than any … #################### 1000000000  at most 1000000000, top 1000000000",
        "  b                              --------------------          0  at most 1",
        "  c                              ######----..........          3  at most 5, top 10",
    ])


def screens(output):
    """What stands after each command: the node, the counts, and what is offered."""
    found = []
    for screen in re.split(r"(?m)^after ", output)[1:]:
        head, *lines = screen.split("\n")
        counts = [int(re.split(r"[\u2588\u2591\u00b7#.-]{20} +", line)[1].split()[0]) for line in lines if "  at most " in line]
        found.append((head, counts, [re.split(r"\d  ", line, maxsplit=1)[1] for line in lines if re.match(r"  \d+  \S+ -> ", line)]))
    return found


def by_pipe(tally, folder):
    """Each screen is what the core says of the firings so far."""
    net = inputs.net(MAY[0])
    sheet = inputs.sheet(MAY[1], net)
    status, output, errors = piped(folder, "1\n\nfails\nback\n2\nb 2\nreset\n1\n\n1\nquit\nfrob\n", *MAY)
    tally.same("a session", (status, errors), (0, ""))
    runs = [[], [0], [0, 1], [0, 1, 3], [0, 1], [0, 1, 3], [0], [], [0], [0, 1], [0, 1, 2]]
    answers = core.ask(*(core.run(net.words, sheet.words, record) for record in runs))
    found = screens(output)
    tally.same("a screen for each", len(found), len(runs))
    for record, answer, (head, counts, offered) in zip(runs, answers, found):
        node = answer.own["node"]
        tally.same(f"{record}: counts", counts, answer.out)
        tally.holds(f"{record}: node", head, f"{len(record)} firing", f"at node {sheet.model.nodes[node]}" + (", which waits" if node in sheet.model.awaits(net.model) else ""))
        tally.same(f"{record}: offered", offered, [f"{net.model.transitions[t]} -> {sheet.model.nodes[n]}" for t, n in sorted(sheet.model.arcs[node].items())])
    tally.holds("the end", output, "3 firings to node half, which holds header tank1\n  core: answer 0 none 0 fired 3 node 3 entry 3 out 0 1 0 1 0 rest 0\n", "> fails\n", "tank1  \u2588\u2588\u2588\u2588\u2588\u2588\u2588\u2588\u2588\u2588\u2591\u2591\u2591\u2591\u2591\u2591\u2591\u2591\u2591\u2591 1  at most 2, top 2\n")
    tally.same("the end of the input is the end", piped(folder, "1", *MAY)[0::2], (0, ""))
    told = json.loads(piped(folder, "1\nhelp\n1\n", *MAY, "--json")[1])
    tally.same("as JSON", (told["fired"], told["node"], told["counts"], [step["fires"] for step in told["steps"]], told["core"]), (2, "sampled", {"line": 1}, ["berth", "line-up"], ["answer 0 none 0 fired 2 node 2 entry 2 out 0 0 1 0 0 rest 0"]))
    tally.holds("help", piped(folder, "help\n", *MAY)[1], "  back [N]     take back", "  replay FILE ")
    closed = subprocess.run(f'"{PROGRAM}" play "{MAY[0]}" "{MAY[1]}" <&-', shell=True, cwd=folder, capture_output=True, text=True, check=False)
    tally.check("a closed input", closed.returncode in (0, 2) and "defect" not in closed.stderr, closed)


def wrong(tally, folder):
    """In a script what is wrong is trouble, with its line."""
    for text, message in (
        ("1\nfrob\n", "standard input:2: 'frob' is no command; help lists them"),
        ("bakc\n", "standard input:1: 'bakc' is no command (did you mean 'back'?)"),
        ("1\n1\n\n", "standard input:3: 2 are offered: which one?"),
        ("2\n", "standard input:1: 2 is not offered: the numbers are 1 to 1"),
        ("0\n", "standard input:1: 0 is not offered"),
        ("load\n", "standard input:1: load is not offered: node idle offers berth"),
        ("back x\n", "standard input:1: a number from 0 to 4,294,967,295 is expected, not 'x'"),
        ("random 5000\n", "standard input:1: 0 firings and 5,000 more: a record may have 4,096"),
        ('save "x\n', "standard input:1: no closing quotation in 'save \"x'"),
        ("replay none.log\n", "standard input:1: none.log: no such file"),
        ("\x1b[31m\n", "standard input:1: '\\x1b[31m' is no command"),
        ("\udcff\n".encode("utf-8", "surrogateescape").decode("latin-1"), "is no command"),
    ):
        status, output, errors = piped(folder, text, *MAY)
        tally.same(f"{text!r}: status", status, 2)
        tally.holds(f"{text!r}", errors, "lineup: ", message)
        tally.check(f"{text!r}: no verdict, nothing obeyed", "core: " not in output and "\x1b" not in output + errors, output)
    for arguments, message in ((["--random", "x"], "a number from 0"), (["--random", "4097"], "0 firings and 4,097 more"), (["--seed", "-1"], "a number from 0"), (["--replay", "no.log"], "no such file")):
        found = lineup(folder, "play", *MAY, *arguments)
        tally.same(f"{arguments}: status", found[0], 2)
        tally.holds(f"{arguments}", found[2], message)
    found = lineup(folder, "play", os.path.join(HOME, "samples", "11-dead-end"), "--random", "1")
    tally.same("a refused sheet is not played", found[0], 1)
    tally.holds("but explained", found[1], "refused, 11 dead end", "core: answer 11 node 0")


def records(tally, folder):
    """What is saved is a log that lineup replays, in a session and from the start."""
    status, output, errors = piped(folder, "1\n1\n2\nsave day.log\nreset\nreplay day.log\n1\nrecord\n", *MAY, "-o", "end.log")
    tally.same("saved and replayed", (status, errors), (0, ""))
    tally.holds("told", output, "  written: day.log\n", "day.log: 3 firings replayed\n", "  rework  -> sampled\n", "4 firings to node sampled", "written: end.log\n")
    tally.same("screens", [head.split(" at ")[0] for head, *_ in screens(output)], ["0 firings", "1 firing", "2 firings", "3 firings", "0 firings", "3 firings", "4 firings"])
    tally.holds("lineup replay follows it", lineup(folder, "replay", *MAY, "end.log")[1], "end.log: 4 firings from node idle to node sampled")
    status, output, errors = piped(folder, "1\n", *MAY, "--replay", "end.log")
    tally.holds("from the start", output, "end.log: 4 firings replayed", "after 5 firings at node half")
    piped(folder, "", *MAY, "-o", "none.log")
    tally.holds("a record without firings", lineup(folder, "replay", *MAY, "none.log")[1], "none.log: 0 firings")
    with open(os.path.join(folder, "bad.log"), "w", encoding="utf-8") as file:
        file.write("berth -> berthed\nberth -> berthed\n")
    found = lineup(folder, "play", *MAY, "--random", "1", "--replay", "bad.log")
    tally.same("a record that the core refuses", found[0], 1)
    tally.holds("and why", found[1], "bad.log:2:1: refused, 20 not offered", "core: answer 20 record 1")
    tally.holds("in a session", piped(folder, "replay bad.log\n", *MAY)[2], "standard input:1: bad.log:2:1: refused, 20 not offered; firing 2 of 2, berth")
    before = os.path.getsize(os.path.join(folder, "bad.log"))
    found = piped(folder, "1\n", *MAY, "-o", "bad.log")
    tally.same("what is not lineup's is told before play begins", (found[0], found[1], os.path.getsize(os.path.join(folder, "bad.log"))), (2, "", before))
    for name, text in (("x.net", NET), ("x.sheet", SHEET)):
        with open(os.path.join(folder, name), "w", encoding="utf-8") as file:
            file.write(text)
    tally.same("a transition that is called as a command", [head.split(" at ")[0] for head, *_ in screens(piped(folder, "s\nback\n1\n1\n", "x.net", "x.sheet")[1])], ["0 firings", "1 firing", "0 firings", "1 firing", "2 firings"])


def at_random(tally, folder):
    """The same seed fires the same; what is fired is a run; every arrow comes up."""
    first = lineup(folder, "play", *MAY, "--random", "40", "--seed", "7", "-o", "a.log")
    again = lineup(folder, "play", *MAY, "--random", "40", "--seed", "7", "-o", "a.log")
    tally.same("the same seed", (first[0], first), (0, again))
    other = lineup(folder, "play", *MAY, "--random", "40", "--seed", "8", "-o", "b.log")
    tally.check("another seed", other[0] == 0 and first[1].replace("a.log", "") != other[1].replace("b.log", ""))
    tally.holds("told", first[1], "40 firings at random, seed 7:\n  1  berth -> berthed\n", "after 40 firings at node", "core: answer 0 none 0 fired 40")
    tally.holds("replayed", lineup(folder, "replay", *MAY, "a.log")[1], "a.log: 40 firings from node idle")
    unseeded = [json.loads(lineup(folder, "play", *MAY, "--random", "200", "--json")[1]) for _ in range(2)]
    tally.check("without a seed each is another", unseeded[0]["seed"] != unseeded[1]["seed"] and unseeded[0]["steps"] != unseeded[1]["steps"])
    same = json.loads(lineup(folder, "play", *MAY, "--random", "200", "--seed", str(unseeded[0]["seed"]), "--json")[1])
    tally.same("and can be had again by the seed that is told", same["steps"], unseeded[0]["steps"])
    net = inputs.net(MAY[0])
    sheet = inputs.sheet(MAY[1], net).model
    one = walker.Walker(sheet, 1)
    one.at_random(4096)
    tally.same("every arrow comes up", len({(n, t) for n, t in zip(one.stood, one.fired)}), 11)
    full = lineup(folder, "play", *MAY, "--random", "4096", "--seed", "1", "-o", "full.log")
    tally.same("as many as a record may have", (full[0], lineup(folder, "replay", *MAY, "full.log")[0]), (0, 0))
    tally.holds("and one more", piped(folder, "1\n", *MAY, "--replay", "full.log")[2], "there are 4,096 firings, as many as a record may have")


def at_a_terminal(tally, folder):
    """Who types sees a prompt, is told what is wrong, and goes on."""
    own, theirs = pty.openpty()
    process = subprocess.Popen([PROGRAM, "play", *MAY, "-o", "typed.log"], cwd=folder, stdin=theirs, stdout=theirs, stderr=theirs, env={**os.environ, "LC_ALL": "C.UTF-8"})
    os.close(theirs)
    try:
        tally.holds("at first", until(own, "\n> "), "after 0 firings at node idle, which waits", "  1  berth -> berthed")
        for typed, parts in (("1\n", ["after 1 firing at node berthed", "  1  line-up -> sampled"]), ("frob\n", ["'frob' is no command; help lists them"]), ("7\n", ["7 is not offered: the numbers are 1 to 1"]), ("\n", ["after 2 firings at node sampled"]), ("back\n", ["after 1 firing at node berthed"])):
            os.write(own, typed.encode())
            tally.holds(f"typed {typed!r}", until(own, "\n> "), *parts)
        os.write(own, b"\x04")
        tally.holds("the end", until(own, None), "1 firing to node berthed, which holds jetty header", "core: answer 0 none 0 fired 1 node 1", "written: typed.log")
        tally.same("the status", process.wait(30), 0)
    finally:
        if process.poll() is None:
            process.kill()
        os.close(own)


def until(terminal, end):
    """What a terminal shows up to a text, or all of it."""
    shown, late = "", time.monotonic() + 30
    while end is None or not shown.endswith(end):
        if not select.select([terminal], [], [], max(0, late - time.monotonic()))[0]:
            raise AssertionError(f"nothing more comes after {shown!r}")
        try:
            data = os.read(terminal, 1 << 16)
        except OSError:
            data = b""
        if not data:
            break
        shown += data.decode().replace("\r\n", "\n")
    return shown
