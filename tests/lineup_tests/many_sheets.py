"""Many sheets at once, and standard input: a line for each sheet, a sum, the status, one start of the core, the bar on a terminal, and the times."""
import contextlib
import io
import json
import os
import pty
import subprocess
import sys
import tempfile
import time

import generated
from called import lineup, program
from lineup import core, progress
from lineup.home import HOME

NET = "pl a\ntr s -> a\ntr u a ->\n"
SHEET = "n:\n  s -> m\nm: a\n  u -> n\n"
LONGER = "n:\n  s -> m\nm: a\n  u -> o\no:\n  s -> p\np: a\n  u -> n\n"
FILES = {"x.net": NET, "x.sheet": SHEET, "longer.sheet": LONGER, "torn.sheet": "n:\n  s -> m\nm: a\n", "bad.sheet": "n: b\n", "over.net": "pl a (2) <= 1\ntr s -> a\n", "x.log": "s -> m\n", "x.times": "s 1 2\nu 3 4\n"}
OK, TORN = "x.sheet: accepted (core: answer 0 none 0 nodes 2 arcs 2 awaits 1)\n", "torn.sheet:3:1: refused, 11 dead end: node m has no arrow (core: answer 11 node 1)\n"
ONCE = "lineup: -: standard input can be read once, and so stand for one file alone\n"
TURNS = 20
LOOP = 0.22  # seconds that loop() takes on a machine where 200 sheets of 1,406 words take 1.5


def run(tally):
    with tempfile.TemporaryDirectory() as folder:
        for name, text in FILES.items():
            save(folder, name, text)
        lines(tally, folder)
        as_json(tally, folder)
        starts(tally, folder)
        standard_input(tally, folder)
        bars(tally, folder)
        times(tally, folder)


def save(folder, name, data):
    path = os.path.join(folder, name)
    os.makedirs(os.path.dirname(path), exist_ok=True)
    with open(path, "wb") as file:
        file.write(data if isinstance(data, bytes) else data.encode())


def lines(tally, folder):
    longer = OK.replace("x.sheet", "longer.sheet").replace("2 arcs 2 awaits 1", "4 arcs 4 awaits 2")
    cases = {
        "x.net x.sheet longer.sheet": (0, OK + longer + "2 sheets: 2 accepted, 0 refused\n", ""),
        "x.net x.sheet torn.sheet longer.sheet": (1, OK + TORN + longer + "3 sheets: 2 accepted, 1 refused\n", ""),
        "x.net torn.sheet torn.sheet": (1, TORN * 2 + "2 sheets: 0 accepted, 2 refused\n", ""),
        "x.net x.sheet y.sheet": (2, OK + "y.sheet: not read\n2 sheets: 1 accepted, 0 refused, 1 not read\n", "lineup: y.sheet: no such file (did you mean 'x.sheet'?)\n"),
        "x.net bad.sheet torn.sheet x.sheet": (2, "bad.sheet: not read\n" + TORN + OK + "3 sheets: 1 accepted, 1 refused, 1 not read\n", "lineup: bad.sheet:1:4: no place 'b'\n"),
        "y.net x.sheet torn.sheet": (2, "", "lineup: y.net: no such file (did you mean 'x.net'?)\n"),
    }
    for arguments, should in cases.items():
        tally.same(f"check {arguments}", lineup(folder, "check", *arguments.split()), should)
    refused = lineup(folder, "check", "over.net", "x.sheet", "torn.sheet")
    tally.holds("a refused net, once", refused[1], "over.net:1:13: refused, 26 overfull start\n", "core: answer 26 place 0", "\nno sheet was judged: the net is refused\n")
    tally.same("a refused net, status", (refused[0], refused[1].count("refused, 26"), refused[2]), (1, 1, ""))
    save(folder, "w/sheet.bin", b"\2\0\0\0\1")
    found = lineup(folder, "check", "w/sheet.bin", "x.sheet", "torn.sheet")
    tally.same("a net of bytes that are no whole words", (found[0], found[1].splitlines()[0], found[1].splitlines()[-1], found[2]), (1, "w/sheet.bin: refused, 1 ragged net", "no sheet was judged: the net is refused", ""))
    lineup(folder, "words", "x.net", "x.sheet", "-o", "folder")
    found = lineup(folder, "check", "x.net", "folder", "w/sheet.bin", "x.sheet")
    tally.holds("folders, and bytes that are no whole words", found[1], "folder/sheet.txt: accepted (core", "w/sheet.bin: refused, 6 ragged sheet: 5 bytes", "3 sheets: 2 accepted, 1 refused\n")
    tally.same("-o", lineup(folder, "check", "x.net", "x.sheet", "torn.sheet", "-o", "report"), (1, "", ""))
    tally.same("-o, again", lineup(folder, "check", "x.net", "x.sheet", "torn.sheet", "-o", "report")[0], 1)
    with open(os.path.join(folder, "report"), encoding="utf-8") as file:
        tally.same("-o, the file", file.read(), OK + TORN + "2 sheets: 1 accepted, 1 refused\n")
    played = core.played
    try:
        core.played = lambda *arguments: played(*arguments).replace("arcs 2", "arcs 3")
        found = lineup(folder, "check", "x.net", "x.sheet", "x.sheet")
        tally.check("a disagreement", found[0] == 2 and "DISAGREEMENT" in found[2] and not found[1], found)
    finally:
        core.played = played


def as_json(tally, folder):
    found = lineup(folder, "check", "x.net", "x.sheet", "torn.sheet", "y.sheet", "--json")
    data = json.loads(found[1])
    tally.same("JSON: the sum", (found[0], data["accepted"], data["sum"]), (2, False, {"sheets": 3, "accepted": 1, "refused": 1, "not_read": 1}))
    tally.same("JSON: accepted", data["sheets"][0], {"sheet": "x.sheet", "accepted": True, "nodes": 2, "arcs": 2, "awaits": 1, "core": ["answer 0 none 0 nodes 2 arcs 2 awaits 1"]})
    alone = json.loads(lineup(folder, "check", "x.net", "torn.sheet", "--json")[1])
    tally.same("JSON: refused, as by itself", data["sheets"][1], {"sheet": "torn.sheet", **alone})
    tally.same("JSON: not read", {**data["sheets"][2], "trouble": data["sheets"][2]["trouble"]["file"]}, {"sheet": "y.sheet", "accepted": None, "trouble": "y.sheet"})
    tally.same("JSON: the core", [line.split(" nodes")[0] for line in data["core"]], ["answer 0 none 0", "answer 11 node 1"])
    tally.same("JSON over itself", [lineup(folder, "check", "x.net", "x.sheet", "torn.sheet", "--json", "-o", "r.json")[0] for _ in range(2)], [1, 1])


def starts(tally, folder):
    """One start of the program for all sheets, whatever the core answers."""
    played, started = core.played, []
    try:
        core.played = lambda *arguments: started.append(arguments) or played(*arguments)
        lineup(folder, "check", "x.net", *["x.sheet", "torn.sheet", "y.sheet", "longer.sheet"] * 10)
        tally.same("starts of the program", len(started), 1)
    finally:
        core.played = played


# ---- standard input


def standard_input(tally, folder):
    """`-` wherever a file is read."""
    cases = {
        "check -": ("x.net", 0, "-: accepted, as a net"),
        "check x.net -": ("x.sheet", 0, "-: accepted\n"),
        "check x.net x.sheet -": ("torn.sheet", 1, "-:3:1: refused, 11 dead end"),
        "check - x.sheet longer.sheet": ("x.net", 0, "2 sheets: 2 accepted"),
        "check folder -": ("numbered", 0, "-: accepted\n"),
        "spread - x.sheet": ("x.net", 0, "spread out, with -"),
        "compare x.net x.sheet -": ("longer.sheet", 0, "same: x.sheet and - allow"),
        "diff x.net - x.sheet": ("longer.sheet", 0, "same: - and x.sheet"),
        "short x.net -": ("longer.sheet", 0, "the short form of -: 4 nodes became 2"),
        "bounds x.net -": ("x.sheet", 0, "-: the most that each place holds"),
        "run x.net - s u": ("x.sheet", 0, "-: 2 firings"),
        "replay x.net x.sheet -": ("x.log", 0, "-: 1 firing from node n to node m"),
        "mend x.net -": ("x.sheet", 0, "# -: the counts are right"),
        "compose x.net -": ("x.sheet", 0, "# for s: -, 2 nodes"),
        "trim x.net -": ("x.sheet", 0, "# -: every node is reached"),
        "times x.net x.sheet -": ("x.times", 0, "-: from 1 node that waits"),
        "words - x.sheet": ("x.net", 0, "net 1 2 2 1 2 1 1"),
        "names -": ("x.net", 0, "tr u  a ->"),
        "draw x.net -": ("x.sheet", 0, "digraph lineup"),
    }
    save(folder, "numbered", "n:\n  s -> m\nm: a\n  u -> n\n")
    for line, (name, status, part) in cases.items():
        found = fed(folder, line, read(folder, name))
        tally.same(f"{line} < {name}: status", (found[0], found[2]), (status, ""))
        tally.holds(f"{line} < {name}", found[1], part)
    for what, data in (("PNML", lineup(folder, "names", "x.net", "--pnml")[1]), ("decimal words", "1 2 2 1 2 1 1"), ("bytes", b"\1\0\0\0\2\0\0\0\2\0\0\0\1\0\0\0\2\0\0\0\1\0\0\0\1\0\0\0")):
        tally.holds(f"{what} on standard input", fed(folder, "check -", data)[1], "-: accepted, as a net")
    save(folder, "names.txt", "place 0 tank\n")
    tally.holds("names beside it are not its own", fed(folder, "check -", "1 2 2 1 2 1 1")[1], "1 place: p0\n")
    os.makedirs(os.path.join(folder, "-"))
    tally.holds("a folder called so is ./-", fed(folder, "check -", NET)[1], "-: accepted, as a net")
    tally.same("twice", fed(folder, "compare x.net - -", SHEET), (2, "", ONCE))
    tally.same("twice, of many", fed(folder, "check x.net - -", SHEET), (2, OK.replace("x.sheet", "-") + "-: not read\n2 sheets: 1 accepted, 0 refused, 1 not read\n", ONCE))
    tally.same("the next command may read it again", [fed(folder, "check -", NET)[0] for _ in range(2)], [0, 0])
    tally.holds("a place in it", fed(folder, "check -", "pl a\nplace\n")[2], "lineup: -:2:1: 'net', 'pl' or 'tr' is expected")
    command = f'"{HOME}/lineup" check x.net -'
    for redirected, errors in (("<&-", "lineup: -: standard input cannot be read: it is closed\n"), ("< .", "lineup: -: standard input cannot be read: it is closed\n"), ("< x.sheet -o x.sheet", "lineup: x.sheet: this command reads it, and so does not write over it\n")):
        done = subprocess.run(["sh", "-c", f"{command} {redirected}"], cwd=folder, capture_output=True, text=True, check=False)
        tally.same(f"check x.net - {redirected}", (done.returncode, done.stdout, done.stderr), (2, "", errors))
    done = subprocess.run(["sh", "-c", f'"{HOME}/lineup" short x.net longer.sheet | {command}'], cwd=folder, capture_output=True, text=True, check=False)
    tally.holds("a pipe from lineup to lineup", done.stdout, "-: accepted\n  2 nodes, 2 arcs")


def fed(folder, line, data):
    """A command in this process with something on standard input."""
    with tempfile.TemporaryFile() as file:
        file.write(data if isinstance(data, bytes) else data.encode())
        file.seek(0)
        before, sys.stdin = sys.stdin, io.TextIOWrapper(file)
        try:
            return lineup(folder, *line.split())
        finally:
            sys.stdin.detach()
            sys.stdin = before


def read(folder, name):
    with open(os.path.join(folder, name), "rb") as file:
        return file.read()


# ---- the bar


class Screen(io.StringIO):
    def isatty(self):
        return True


def bars(tally, folder):
    """Nothing within a second or where nobody looks; later a bar, which is gone at the end."""
    shown = drawn(Screen(), [0.5, 0.99])
    tally.same("within a second", shown, "")
    shown = drawn(Screen(), [0.5, 1.2, 1.25, 1.4])
    tally.same("after a second, and not too often", shown.replace("\r", "|").replace(" ", ""), "||lineup:[" + "#" * 12 + "." * 12 + "]50%||lineup:[" + "#" * 24 + "]100%||")
    tally.check("and it is wiped away", shown.endswith("\r" + " " * len("lineup: [" + "#" * 24 + "] 100 %") + "\r"), shown)
    tally.same("where nobody looks", drawn(io.StringIO(), [0.5, 2, 3]), "")
    broken = Screen()
    broken.close()
    with contextlib.redirect_stderr(broken), progress.Bar(1, iter([0, 5, 5]).__next__) as bar:
        tally.same("a terminal that is gone", bar.after(lambda: 7), 7)
    error, slow = on_terminal(folder, 3), on_terminal(folder, 0)
    tally.check("a slow one on a terminal", "lineup: [" in error and error.rstrip("\n").endswith("\r"), error)
    tally.same("a quick one on a terminal", slow, "")


def drawn(screen, moments):
    """What a bar of so many steps shows, where each ends at its moment."""
    now = [0.0]
    with contextlib.redirect_stderr(screen), progress.Bar(len(moments), lambda: now[-1]) as bar:
        for moment in moments:
            bar.after(now.append, moment)
    return screen.getvalue()


def on_terminal(folder, wait):
    """What standard error shows on a terminal where standard input comes late."""
    ours, theirs = pty.openpty()
    with subprocess.Popen([os.path.join(HOME, "lineup"), "check", "x.net", "-", "x.sheet", "longer.sheet"], cwd=folder, stdin=subprocess.PIPE, stdout=subprocess.PIPE, stderr=theirs) as started:
        os.close(theirs)
        time.sleep(wait)
        started.communicate(SHEET.encode())
    try:
        return os.read(ours, 10_000).decode()
    except OSError:  # nothing was written, and nobody can write any more
        return ""
    finally:
        os.close(ours)


# ---- times


def times(tally, folder):
    """200 sheets in under two seconds of the processor; where loop() takes longer than LOOP, in as many times more. Others may be at work on the machine: the sheets and the loop
    are measured by turns, at most TURNS of them, and the least of each counts."""
    found = [(net, sheet) for net, sheet, _ in generated.siblings(5, 300) if 30 <= sheet.words[0] <= 64 and len(sheet.words) < 1500]
    net, sheet = max(found, key=lambda pair: len(pair[1].words))
    save(folder, "large/net.txt", " ".join(map(str, net.words)))
    save(folder, "large/sheet.txt", " ".join(map(str, sheet.words)))
    lineup(folder, "names", "large", "-o", "large")
    for name, size in (("x", "2 nodes"), ("large", f"{sheet.words[0]} nodes, {len(sheet.words)} words")):
        sheets = [f"{name}{i}.sheet" for i in range(200)]
        for other in sheets:
            save(folder, other, read(folder, f"{name}.sheet"))
        took, loops = [], []
        while not took or (min(took) >= bar(loops) and len(took) < TURNS):
            took.append(timed(tally, folder, f"{name}.net", sheets))
            loops += [loop() for _ in range(5)]
        tally.check(f"200 sheets of {size}: {min(took):.2f} s of the processor, of {bar(loops):.2f}", min(took) < bar(loops), (took, loops))


def loop():
    """The processor's seconds for a loop that is always the same."""
    before = time.process_time()
    sum(i * i % 7 for i in range(2_000_000))
    return time.process_time() - before


def bar(loops):
    return 2 * max(1, min(loops) / LOOP)


def timed(tally, folder, net, sheets):
    before = sum(os.times()[2:4])
    found = program(folder, "check", net, *sheets)
    tally.same(f"check {net}: the sum", (found[0], found[1].splitlines()[-1]), (0, f"{len(sheets)} sheets: {len(sheets)} accepted, 0 refused"))
    return sum(os.times()[2:4]) - before
