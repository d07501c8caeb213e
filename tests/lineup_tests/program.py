"""The commands as they are called: exit statuses, JSON, outputs, help, version, installation, start-up."""
import json
import os
import re
import shutil
import struct
import subprocess
import tempfile
import time

import beside
import generated
from called import lineup, program
from lineup import cli, commands, core
from lineup.explain import Disagreement
from lineup.home import HOME

NET = "pl a\ntr s -> a\ntr u a ->\n"
SHEET = "n:\n  s -> m\nm: a\n  u -> n\n"
LONGER = "n:\n  s -> m\nm: a\n  u -> o\no:\n  s -> p\np: a\n  u -> n\n"
GREEDY = "n:\n  s -> m\nm: a\n  s -> o\no: a*2\n  u -> p\np: a\n  u -> n\n"
TORN = "n:\n  s -> m\nm: a\n"
SHARED = "tr s -> a\ntr t a ->\ntr u a ->\ntr w a*2 ->\n"
BOTH = "n:\n  s -> m\nm: a\n  t -> n\n  u -> n\n"
LOG = "log x\ns -> m\nu -> n\ns -> m\n"
ARROWS = "n:\n  s -> m\nm:\n  u -> n\n"
STALE = "n: a*0\n  s -> m\nm: a*7\n  u -> o\no: a*4294967295\n  s -> p\np:\n  u -> n\n"
HOARD = "n:\n  s -> n\n"
STARVED = "n:\n  s -> m\nm:\n  w -> n\n"
TWO = "pl a\npl b\ntr s -> a\ntr u a ->\ntr v -> b\ntr w b ->\n"
OTHER = "k:\n  v -> l\nl: b\n  w -> k\n"
LEFT = "n:\n  s -> m\no: a*7\n  u -> m\nm: a\n  u -> n\nq:\n"
CAPPED = "pl a <= 1\ntr s -> a\ntr u a ->\n"
BACK = "pl a <= 1\ntr s -> a\ntr b a -> a\ntr u a ->\n"
BACKS = "n:\n  s -> m\nm:\n  b -> m\n  u -> n\n"
FULL = "n:\n  s -> m\nm: a\n  b -> m\n  u -> n\n"
SHUT = "pl a <= 0\npl b <= 0\ntr s -> b\ntr u b ->\ntr v b -> b a*0\n"
OVER = "pl a (2) <= 1\ntr s -> a\ntr u a ->\n"
SHORT = "n:\n  s -> m\nm:  a\n  u -> n\n# written by lineup, fda111e3\n"
KEPT = "n:\n  s -> m\nm: a\n  u -> n\n# written by lineup, 4093f287\n"
FILES = {
    "x.net": NET, "x.sheet": SHEET, "longer.sheet": LONGER, "greedy.sheet": GREEDY, "torn.sheet": TORN, "shared.net": SHARED, "both.sheet": BOTH, "x.log": LOG,
    "arrows.sheet": ARROWS, "stale.sheet": STALE, "hoard.sheet": HOARD, "starved.sheet": STARVED,
    "two.net": TWO, "other.sheet": OTHER, "left.sheet": LEFT, "capped.net": CAPPED, "back.net": BACK, "back.sheet": BACKS, "full.sheet": FULL, "over.net": OVER,
    "shut.net": SHUT.replace(" a*0", "").replace("b <= 0", "b"), "shut2.net": SHUT.replace("a <= 0", "a").replace(" a*0", ""), "none.net": SHUT.replace(" <= 0", ""),
}


def run(tally):
    with tempfile.TemporaryDirectory() as folder:
        for name, text in FILES.items():
            save(folder, name, text)
        statuses(tally, folder)
        outputs(tally, folder)
        as_json(tally, folder)
        word_files(tally, folder)
        trouble(tally, folder)
        slips(tally, folder)
        disagreements(tally, folder)
        usage(tally, folder)
        largest(tally, folder)
    installed(tally)


def save(folder, name, data):
    path = os.path.join(folder, name)
    os.makedirs(os.path.dirname(path), exist_ok=True)
    with open(path, "wb") as file:
        file.write(data if isinstance(data, bytes) else data.encode())


def statuses(tally, folder):
    """What each command answers, and that it quotes the core."""
    cases = [
        (0, "check x.net x.sheet", ["accepted", "core: answer 0 none 0 nodes 2 arcs 2 awaits 1", "bounds: a <= 1"]),
        (0, "check x.net", ["accepted, as a net", "sources: s", "core: answer 0 none 0"]),
        (1, "check x.net torn.sheet", ["torn.sheet:3:1: refused, 11 dead end", "core: answer 11 node 1"]),
        (0, "spread x.net x.sheet", ["x.sheet: spread out, with x.net", "\n    s  +1\n    u  -1\n", "\n       s  u  |  a\n    n  m  .  |  .\n    m  .  n  |  1\n", "[x] 17: from every node", "core: answer 0 none 0 nodes 2 arcs 2 awaits 1"]),
        (0, "spread capped.net x.sheet", ["\n       starts  capacity\n    a       .         1\n"]),
        (1, "spread x.net torn.sheet", ["[x] 10: the first node", "[ ] 11, 12: each node", "torn.sheet:3:1: refused, 11 dead end", "core: answer 11 node 1"]),
        (1, "spread back.net full.sheet", ["\n    b   .\n", "[x] 13: ", "[ ] 14, 27, 15: each arrow", "refused, 27 over capacity", "core: answer 27 entry 1"]),
        (1, "spread over.net x.sheet", ["over.net:1:13: refused, 26 overfull start", "core: answer 26 place 0"]),
        (0, "compare x.net x.sheet longer.sheet", ["same: x.sheet and longer.sheet allow the same firings", "core: answer 0 none 0 length 8 length 8 same 1 sheet 0"]),
        (1, "compare x.net x.sheet greedy.sheet", ["different: x.sheet and greedy.sheet do not", "core: answer 0 none 0 length 8 length 16 same 0 sheet 0"]),
        (2, "compare x.net x.sheet torn.sheet", ["torn.sheet:3:1: refused, 11 dead end; it cannot be compared", "core: answer 11 node 1 length 0 length 0 same 0 sheet 2"]),
        (2, "compare x.net torn.sheet torn.sheet", ["refused, 11 dead end; it cannot be compared", "same 0 sheet 1"]),
        (2, "compare over.net x.sheet torn.sheet", ["over.net:1:13: refused, 26 overfull start; it cannot be compared", "same 0 sheet 0"]),
        (0, "diff x.net x.sheet longer.sheet", ["same: ", "core: answer 0 none 0 length 8 length 8 same 1"]),
        (1, "diff x.net x.sheet greedy.sheet", ["different: after 1 firing", "only x.sheet allows: s u", "only greedy.sheet allows: s s", "answer 20 record 1"]),
        (1, "check shared.net both.sheet", ["t, u take the same (a), but on a place of theirs draws w (a*2)", "each of them stands alone", "core: answer 12 node 1"]),
        (0, "check shared.net x.sheet", ["accepted", "core: answer 0 none 0 nodes 2 arcs 2 awaits 1"]),
        (2, "diff x.net x.sheet torn.sheet", ["torn.sheet:3:1: refused, 11 dead end; it cannot be compared", "core: answer 11"]),
        (0, "short x.net longer.sheet", ["4 nodes became 2", "# n, o became n", "# no accepted sheet that allows the same firings has fewer than 2 nodes", "# core: answer 0 none 0 length 8"]),
        (1, "short x.net torn.sheet", ["11 dead end", "core: answer 11"]),
        (0, "bounds x.net greedy.sheet", ["a 2  at o", "core: answer 0 none 0 out 2 rest 0"]),
        (1, "bounds x.net torn.sheet", ["11 dead end"]),
        (0, "run x.net x.sheet", ["0 firings from node n", "core: answer 0 none 0 fired 0 node 0 entry 0"]),
        (0, "run x.net x.sheet s u s", ["3 firings", "3  s -> m: a", "the last arrow: x.sheet:2:3: entry 0", "core: answer 0 none 0 fired 3 node 1 entry 1 out 1 rest 0"]),
        (0, "run x.net x.sheet s u", ["the last arrow: x.sheet:4:3: entry 1", "core: answer 0 none 0 fired 2 node 0 entry 2"]),
        (1, "run x.net x.sheet s s", ["refused, 20 not offered", "firing 2 of 2, s: node m offers u", "core: answer 20 record 1"]),
        (1, "run x.net torn.sheet s", ["11 dead end"]),
        (0, "replay x.net x.sheet x.log", ["x.log: 3 firings from node n to node m", "a     taken 1 put 2   0 + 2 - 1 = 1", "total taken 1 put 2", "the last arrow: x.sheet:2:3: entry 0", "core: answer 0 none 0 taken 1 put 2 entry 1 out 1 rest 0 out 2 rest 0"]),
        (1, "replay x.net greedy.sheet x.log", ["x.log:3:1: refused, 20 not offered", "firing 2 of 3, u: node m offers s", "core: answer 20 record 1 taken 0 put 0 entry 0"]),
        (1, "replay x.net longer.sheet x.log", ["x.log:3:1: refused, 24 logged node differs", "firing 2 of 3, u: leads from node m to node o, and the log says node n", "core: answer 24 record 1"]),
        (1, "replay x.net torn.sheet x.log", ["11 dead end"]),
        (0, "mend x.net x.sheet", ["# x.sheet: the counts are right, and nothing changed", "# core: answer 0 none 0 length 8 list 1", "m: a"]),
        (0, "mend x.net arrows.sheet", ["# arrows.sheet: no count was given, and 1 count filled in", "# arrows.sheet:3:1: node m holds a", "length 8 list 3", "m:  a"]),
        (0, "mend x.net stale.sheet", ["3 counts changed", "stale.sheet:3:1: node m: a 7 becomes 1", "node o: a 4294967295 becomes 0", "node p: a 0 becomes 1", "written as 0 and left out: a of node n"]),
        (1, "mend x.net torn.sheet", ["torn.sheet:3:1: refused, 11 dead end", "core: answer 11 node 1 length 0 list 0"]),
        (1, "mend x.net hoard.sheet", ["hoard.sheet:2:3: refused, 25 no counts fit", "node n, s -> n: a: 0 - 0 + 1 = 1, and another way to node n gives 0", "node n is reached by no firing and then holds nothing", "core: answer 25 none 0"]),
        (1, "mend shared.net starved.sheet", ["starved.sheet:4:3: refused, 25 no counts fit", "node m, w -> n: a: w takes 2, and there is 1", "node m is reached by s and then holds a"]),
        (0, "compose two.net other.sheet x.sheet", ["# composed: 3 nodes, 4 arcs, 1 await node", "# for s: x.sheet, 2 nodes", "# for v: other.sheet, 2 nodes", "# core: answer 0 none 0 length 14 sheet 0", "{n+k}:", "{m+k}:  a"]),
        (1, "compose two.net x.sheet", ["two.net:3:4: refused, 28 wrong number of sheets", "the net has 2 sources, s, v, and there is 1 sheet", "core: answer 28 none 0 length 0 sheet 0"]),
        (1, "compose two.net torn.sheet other.sheet", ["torn.sheet:3:1: refused, 11 dead end", "read as one for s alone, without v", "core: answer 11 node 1 length 0 sheet 1"]),
        (1, "compose over.net x.sheet", ["over.net:1:13: refused, 26 overfull start", "core: answer 26 place 0 length 0 sheet 0"]),
        (0, "compose x.net x.sheet", ["# composed: 2 nodes, 2 arcs, 1 await node", "m:  a"]),
        (0, "trim x.net left.sheet", ["# left.sheet: of 4 nodes 2 are not reached and dropped", "# left.sheet:3:1: node o is dropped", "# left.sheet:7:1: node q is dropped", "# core: answer 0 none 0 length 8 list 2", "m: a"]),
        (0, "trim x.net x.sheet", ["# x.sheet: every node is reached, and none is dropped"]),
        (0, "trim x.net torn.sheet", ["# torn.sheet: every node is reached", "m: a"]),
        (1, "trim x.net stale.sheet", ["stale.sheet:1:4: refused, 9 sheet value", "core: answer 9 entry 4 length 0 list 0"]),
        (1, "trim over.net x.sheet", ["over.net:1:13: refused, 26 overfull start", "core: answer 26 place 0 length 0 list 0"]),
        (0, "check capped.net", ["accepted, as a net", "capacities: a <= 1"]),
        (0, "check capped.net x.sheet", ["accepted", "bounds: a <= 1"]),
        (1, "check capped.net greedy.sheet", ["greedy.sheet:4:3: refused, 27 over capacity", "node m, s -> o: a: 1 + 1 = 2, but it can hold at most 1", "core: answer 27 entry 1"]),
        (0, "bounds capped.net x.sheet", ["a 1  at m; it can hold 1"]),
        (0, "mend capped.net arrows.sheet", ["# arrows.sheet: no count was given, and 1 count filled in", "length 8 list 3", "m:  a"]),
        (0, "mend capped.net stale.sheet", ["stale.sheet:3:1: node m: a 7 becomes 1", "node o: a 4294967295 becomes 0"]),
        (1, "mend capped.net greedy.sheet", ["greedy.sheet:4:3: refused, 25 no counts fit", "node m, s -> o: a: 1 + 1 = 2, but it can hold at most 1", "node m is reached by s and then holds a", "core: answer 25 none 0"]),
        (1, "mend back.net back.sheet", ["back.sheet:4:3: refused, 25 no counts fit", "node m, b -> m: a: 1 + 1 = 2, but it can hold at most 1; what b takes there, 1, makes no room"]),
        (1, "mend over.net arrows.sheet", ["over.net:1:13: refused, 26 overfull start", "a starts with 2, and can hold at most 1", "core: answer 26 place 0 length 0 list 0"]),
        (1, "check over.net", ["over.net:1:13: refused, 26 overfull start", "core: answer 26 place 0"]),
        (1, "check shut.net", ["shut.net:1:9: refused, 4 net weight", "a can hold at most 0, and a weight is 1 to", "without a capacity a can hold any number; to keep it empty, let no transition put into it, as none does now", "leave out what is 0, but for a capacity"]),
        (1, "check shut2.net x.sheet", ["shut2.net:2:9: refused, 4 net weight", "without a capacity b can hold any number; to keep it empty, let no transition put into it; now s, v put into it", "core: answer 4 entry 4"]),
        (1, "check none.net", ["none.net:5:13: refused, 4 net weight\n  v puts 0 into a, and a weight is 1 to 1,000,000,000\n  to do: "]),
        (0, "words capped.net x.sheet", ["net 1 2 3 1 2 5 1 1 1", "sheet 2 3 0 3 5 1 0 1"]),
        (0, "names capped.net", ["pl a <= 1"]),
        (0, "names capped.net --pnml", ["<capacity><text>1</text></capacity>"]),
        (0, "draw capped.net", ["can hold 1"]),
        (1, "draw over.net", ["// refused, 26 overfull start", "// a starts with 2, and can hold at most 1", 'fillcolor="#fbe3e6"']),
        (0, "words x.net x.sheet", ["net 1 2 2 1 2 1 1", "sheet 2 3 0 3 5 1 0 1"]),
        (0, "names x.net x.sheet", ["tr u  a ->", "m:  a"]),
        (0, "names x.net --pnml", ['<place id="p0"><name><text>a</text></name></place>']),
        (0, "draw x.net x.sheet", ["digraph lineup", "// core: answer 0 none 0", "peripheries=2"]),
        (1, "draw x.net torn.sheet", ["digraph lineup", "// refused, 11 dead end"]),
        (0, "draw x.net", ["digraph lineup", "shape=ellipse"]),
    ]
    for status, command, parts in cases:
        found = lineup(folder, *command.split())
        tally.same(f"{command}: status", (found[0], found[2]), (status, ""))
        tally.holds(command, found[1], *parts)


def outputs(tally, folder):
    """-o writes what standard output would have had, or the command's own files."""
    shown = lineup(folder, "check", "x.net", "x.sheet")
    tally.same("check -o", lineup(folder, "check", "x.net", "x.sheet", "-o", "report.txt"), (0, "", ""))
    tally.same("check -o, the file", read(folder, "report.txt"), shown[1])
    lineup(folder, "short", "x.net", "longer.sheet", "-o", "short.sheet")
    tally.same("short -o", read(folder, "short.sheet"), KEPT)
    tally.holds("mend -o, what is told", lineup(folder, "mend", "x.net", "arrows.sheet", "-o", "mended.sheet")[1], "  arrows.sheet:3:1: node m holds a\n", "written: mended.sheet\n")
    tally.same("mend -o", read(folder, "mended.sheet"), SHORT)
    tally.same("mend -o, a refused one", (lineup(folder, "mend", "x.net", "hoard.sheet", "-o", "none.sheet")[0], os.path.exists(os.path.join(folder, "none.sheet"))), (1, False))
    tally.holds("compose -o, what is told", lineup(folder, "compose", "two.net", "x.sheet", "other.sheet", "-o", "composed.sheet")[1], "  for s: x.sheet, 2 nodes\n", "written: composed.sheet\n")
    tally.holds("compose -o", lineup(folder, "check", "two.net", "composed.sheet")[1], "composed.sheet: accepted", "answer 0 none 0 nodes 3 arcs 4 awaits 1")
    tally.holds("trim -o, what is told", lineup(folder, "trim", "x.net", "left.sheet", "-o", "trimmed.sheet")[1], "  left.sheet:3:1: node o is dropped\n", "written: trimmed.sheet\n")
    tally.same("trim -o", read(folder, "trimmed.sheet"), KEPT)
    tally.same("words -o", lineup(folder, "words", "x.net", "x.sheet", "-o", "w/x")[0], 0)
    tally.same("words -o, the files", sorted(os.listdir(os.path.join(folder, "w", "x"))), ["names.txt", "net.txt", "sheet.txt"])
    tally.same("words -o, read again", lineup(folder, "words", "w/x")[1], lineup(folder, "words", "x.net", "x.sheet")[1])
    lineup(folder, "words", "x.net", "x.sheet", "--binary", "-o", "b")
    tally.same("words --binary", read(folder, "b/sheet.bin", "rb"), struct.pack("<8I", 2, 3, 0, 3, 5, 1, 0, 1))
    tally.same("words --binary, read again", lineup(folder, "check", "b")[1].replace("b/sheet.bin", "x.sheet"), shown[1])
    forms(tally, folder)
    lineup(folder, "names", "b", "-o", "again.net")
    tally.same("names -o", (read(folder, "again.net"), read(folder, "again.sheet")), ("pl a\ntr s    -> a\ntr u  a ->\n# written by lineup, 2cfbf3ce\n", SHORT))
    lineup(folder, "names", "x.net", "--pnml", "-o", "again")
    tally.same("PNML, read again", lineup(folder, "words", "again.pnml")[1], lineup(folder, "words", "x.net")[1])
    for name, first in (("a.svg", "<svg "), ("a.dot", "digraph")) + ((("a.png", "\x89PNG"), ("a.pdf", "%PDF")) if shutil.which("dot") else ()):
        tally.same(f"draw -o {name}", lineup(folder, "draw", "x.net", "x.sheet", "-o", name)[0], 0)
        tally.check(f"draw -o {name}, the file", read(folder, name, "rb").decode("latin-1").startswith(first))
    if not shutil.which("dot"):
        tally.holds("draw -o a.png without graphviz", lineup(folder, "draw", "x.net", "-o", "a.png")[2], "needs graphviz")
    refused = lineup(folder, "draw", "x.net", "torn.sheet", "-o", "torn.svg")
    tally.same("a refused sheet is drawn", (refused[0], "refused, 11 dead end" in read(folder, "torn.svg")), (1, True))


def forms(tally, folder):
    """Words are written over those of the other form, which are removed; where both are there, it is told which is used."""
    lineup(folder, "words", "x.net", "torn.sheet", "--binary", "-o", "f")
    found = lineup(folder, "words", "x.net", "x.sheet", "-o", "f")
    tally.same("words over older ones of bytes", (found, sorted(os.listdir(os.path.join(folder, "f")))), ((0, "".join(
        [f"written: f/{name}.txt\n" for name in ("net", "sheet", "names")] + [f"removed: f/{name}.bin\n" for name in ("net", "sheet")]), ""), ["names.txt", "net.txt", "sheet.txt"]))
    tally.same("and they are judged", lineup(folder, "check", "f")[0], 0)
    found = json.loads(lineup(folder, "words", "x.net", "--binary", "-o", "f", "--json")[1])
    tally.same("a net alone replaces a net alone", (found["removed"], sorted(os.listdir(os.path.join(folder, "f")))), (["f/net.txt"], ["names.txt", "net.bin", "sheet.txt"]))
    save(folder, "f/sheet.bin", struct.pack("<6I", 2, 2, 0, 5, 1, 1))
    for command in ("check f", "check x.net f", "diff f f f"):
        found = lineup(folder, *command.split())
        tally.same(f"{command} with both forms", (found[0], found[2]), (2 if "diff" in command else 1, "lineup: f has both sheet.bin and sheet.txt: sheet.bin is used\n"))
        tally.holds(f"{command} with both forms, the one used", found[1], "f/sheet.bin: refused, 11 dead end")
    save(folder, "f/net.txt", "1 2 2 1 2 1 1")
    tally.same("both forms of both", lineup(folder, "short", "f")[2], "".join(f"lineup: f has both {name}.bin and {name}.txt: {name}.bin is used\n" for name in ("net", "sheet")))
    os.makedirs(os.path.join(folder, "g", "net.bin"))
    tally.same("a folder in the way", lineup(folder, "words", "x.net", "-o", "g")[::2], (2, "lineup: g/net.bin: cannot be removed: is a directory\n"))


def read(folder, name, mode="r"):
    with open(os.path.join(folder, name), mode) as file:
        return file.read()


def as_json(tally, folder):
    cases = {
        "check x.net x.sheet": {"accepted": True, "nodes": 2, "arcs": 2, "awaits": 1, "bounds": {"a": 1}},
        "check x.net": {"accepted": True, "sources": ["s"], "capacities": {}},
        "check capped.net": {"accepted": True, "capacities": {"a": 1}},
        "check x.net torn.sheet": {"accepted": False},
        "spread capped.net x.sheet": {"accepted": True, "starts": {}, "capacities": {"a": 1}, "taken": {"s": {}, "u": {"a": 1}}, "change": {"s": {"a": 1}, "u": {"a": -1}}, "grid": {"n": {"arrows": {"s": "m"}, "holds": {}}, "m": {"arrows": {"u": "n"}, "holds": {"a": 1}}}},
        "spread x.net torn.sheet": {"accepted": False},
        "compare x.net x.sheet longer.sheet": {"same": True, "nodes": [2, 2], "words": [[2, 3, 0, 3, 5, 1, 0, 1]] * 2},
        "compare x.net x.sheet greedy.sheet": {"same": False, "nodes": [2, 4]},
        "diff x.net x.sheet longer.sheet": {"same": True},
        "diff x.net x.sheet greedy.sheet": {"same": False, "before": ["s"]},
        "short x.net longer.sheet": {"nodes": 2, "merged": [["n", "o"], ["m", "p"]], "words": [2, 3, 0, 3, 5, 1, 0, 1]},
        "bounds x.net greedy.sheet": {"bounds": {"a": 2}, "attained": {"a": ["o"]}, "capacities": {}},
        "bounds capped.net x.sheet": {"bounds": {"a": 1}, "attained": {"a": ["m"]}, "capacities": {"a": 1}},
        "run x.net x.sheet s": {"fired": 1, "node": "m", "counts": {"a": 1}},
        "replay x.net x.sheet x.log": {"accepted": True, "firings": 3, "node": "m", "taken": {"a": 1}, "put": {"a": 2}, "total": {"taken": 1, "put": 2}},
        "mend x.net arrows.sheet": {"accepted": True, "nodes": 2, "changes": [{"node": "m", "place": "a", "given": 0, "count": 1}], "words": [2, 3, 0, 3, 5, 1, 0, 1], "list": [1, 1, 1], "sheet": "n:\n  s -> m\nm:  a\n  u -> n\n"},
        "mend x.net hoard.sheet": {"accepted": False},
        "mend capped.net arrows.sheet": {"accepted": True, "nodes": 2, "list": [1, 1, 1]},
        "mend capped.net greedy.sheet": {"accepted": False},
        "compose two.net other.sheet x.sheet": {"accepted": True, "nodes": 3, "states": [["n", "k"], ["m", "k"], ["n", "l"]], "tasks": [{"source": "s", "sheet": "x.sheet"}, {"source": "v", "sheet": "other.sheet"}]},
        "compose two.net x.sheet": {"accepted": False},
        "trim x.net left.sheet": {"accepted": True, "nodes": 2, "kept": ["n", "m"], "dropped": ["o", "q"], "words": [2, 3, 0, 3, 5, 1, 0, 1], "list": [0, 2], "sheet": "n:\n  s -> m\nm: a\n  u -> n\n"},
        "trim x.net stale.sheet": {"accepted": False},
        "words x.net": {"net": [1, 2, 2, 1, 2, 1, 1]},
        "names x.net": {"net": "pl a\ntr s    -> a\ntr u  a ->\n"},
        "draw x.net x.sheet": {"accepted": True},
    }
    for command, should in cases.items():
        found = json.loads(lineup(folder, *command.split(), "--json")[1])
        tally.same(f"{command} --json", {key: found.get(key) for key in should}, should)
    refusal = json.loads(lineup(folder, "check", "x.net", "torn.sheet", "--json")[1])
    told = {key: refusal["refusal"][key] for key in ("number", "word", "position", "file", "line", "column")}
    should = {"number": 11, "word": "dead end", "position": {"kind": "node", "index": 1}, "file": "torn.sheet", "line": 3, "column": 1}
    tally.same("a refusal in JSON", told, should)
    tally.holds("the core in JSON", refusal["core"][0], "answer 11 node 1")
    found = lineup(folder, "check", "x.nett", "x.sheet", "--json")
    tally.same("trouble in JSON", (found[0], json.loads(found[1])["trouble"]["file"]), (2, "x.nett"))


def word_files(tally, folder):
    """Tails, swapped files, lengths that do not fit, and files mixed with texts."""
    net, sheet = struct.pack("<7I", 1, 2, 2, 1, 2, 1, 1), struct.pack("<8I", 2, 3, 0, 3, 5, 1, 0, 1)
    cases = {
        "tail of a net": (net + b"\1", sheet, ["net.bin: refused, 1 ragged net", "29 bytes are 7 words of four bytes and 1 over", "core: answer 1 none 0"]),
        "tail of a sheet": (net, sheet + b"\1\2", ["sheet.bin: refused, 6 ragged sheet", "34 bytes are 8 words of four bytes and 2 over", "core: answer 6 none 0"]),
        "swapped": (sheet, net, ["refused, 1", "likely: net and sheet are swapped; that way the core accepts them", "answer 0 none 0 nodes 2 arcs 2 awaits 1"]),
        "the wrong way round": (turned(net), turned(sheet), ["refused, 2", "likely: the bytes of each word stand the wrong way round", "answer 0 none 0 nodes 2"]),
        "text called .bin": (b"1 2 2 # sizes\n1 2 1 1", b"2 3 0 3 5 1 0 1", ["likely: a file of decimal words is called .bin", "answer 0 none 0 nodes 2"]),
        "one word less": (net, sheet[:-4], ["K, the second word, says 3 entries, which makes 2 + 2 * 3 = 8 words; there are 7, 1 too few", "likely: the 3 keys are there, and 1 of the 3 values is missing"]),
        "another K": (net, struct.pack("<8I", 2, 4, 0, 3, 5, 1, 0, 1), ["likely: K should be 3"]),
        "something over": (net, sheet + struct.pack("<2I", 0, 0), ["2 too many", "something follows them"]),
        "cut short": (net, sheet[:20], ["likely: the 3 keys are there, and 3 of the 3 values are missing"]),
        "a key less": (struct.pack("<6I", 1, 2, 2, 1, 1, 1), sheet, ["likely: a key is missing"]),
        "hardly a net": (net[:8], sheet, ["there are 2 words, and a net begins with 3"]),
        "empty": (b"", b"", ["there are 0 words"]),
        "a key twice": (struct.pack("<7I", 1, 2, 2, 2, 2, 1, 1), sheet, ["entry 1: key 2 (t0 puts into p0) is there twice", "key at byte 16, value at byte 24"]),
        "a key too large": (struct.pack("<7I", 1, 2, 2, 1, 6, 1, 1), sheet, ["entry 1: key 6 is not below (2 * 2 + 2) * 1 = 6"]),
        "a sheet's key too large": (net, struct.pack("<8I", 2, 3, 0, 3, 6, 1, 0, 1), ["entry 2: key 6 is not below 2 * (2 + 1) = 6"]),
        "too many entries": (struct.pack("<3I", 1, 2, 7), sheet, ["K says 7 entries, and 1 places with 2 transitions have at most 6"]),
        "a sheet's too many": (net, struct.pack("<2I", 2, 4097), ["the sheet has 4097 arcs and counts, and may have 4,096"]),
    }
    for what, (one, other, parts) in cases.items():
        save(folder, f"{what}/net.bin", one)
        save(folder, f"{what}/sheet.bin", other)
        found = lineup(folder, "check", what)
        tally.same(f"{what}: status", (found[0], found[2]), (1, ""))
        tally.holds(what, found[1], *parts)
        for command in ("spread", "short", "bounds", "run", "mend", "trim", "words", "names", "draw"):
            tally.same(f"{what}: {command}", lineup(folder, command, what)[0], 1)
    mixed(tally, folder, net, sheet)
    word_logs(tally, folder, net, sheet)


def word_logs(tally, folder, net, sheet):
    """Logs as words: beside their net and sheet, in decimal and in bytes, and of another length."""
    save(folder, "logged/net.bin", net)
    save(folder, "logged/sheet.bin", sheet)
    cases = {
        "3 0 1 0 1 0 1": (0, ["3 firings from node n0 to node n1", "taken 1 put 2", "sheet.bin: entry 0"]),
        "0": (0, ["0 firings from node n0 to node n0", "core: answer 0 none 0 taken 0 put 0 entry 0"]),
        "": (1, ["refused, 23 no record", "there is no word"]),
        "3 0 1 0 1 0": (1, ["log.txt:1:1: refused, 23 no record", "which makes 1 + 2 * 3 = 7 words; there are 6, 1 too few"]),
        "1 0 1 1": (1, ["there are 4, 1 too many"]),
        "4097 0": (1, ["the log has 4097 firings, and may have 4,096"]),
        "1 0 2": (1, ["log.txt:1:5: refused, 24 logged node differs", "the log says node number 2, and the nodes are 0 to 1"]),
        "1 2 1": (1, ["log.txt:1:3: refused, 20 not offered", "firing 1 of 1, transition 2: node n0 offers t0"]),
    }
    for log, (status, parts) in cases.items():
        save(folder, "logged/log.txt", log)
        found = lineup(folder, "replay", "logged", "logged/log.txt")
        tally.same(f"log {log!r}: status", (found[0], found[2]), (status, ""))
        tally.holds(f"log {log!r}", found[1], *parts)
    empty_logs(tally, folder)
    save(folder, "logged/log.bin", struct.pack("<3I", 1, 0, 1))
    tally.holds("a log of bytes", lineup(folder, "replay", "logged", "logged")[1], "logged/log.bin: 1 firing from node n0 to node n1")
    save(folder, "long.bin", struct.pack("<9000I", 4500, *[0] * 8999))
    tally.holds("a log that is too long", lineup(folder, "replay", "logged", "long.bin")[1], "the log has 4500 firings, and may have 4,096")


def empty_logs(tally, folder):
    """A file that says nothing is no log, in whatever form: it may have been cut short before its first line."""
    cases = {"x.log": "there is no firing, and no line 'log NAME'", "nothing": "there is no firing, and no line 'log NAME'", "log.txt": "there is no word", "log.bin": "there is no word"}
    for name, part in cases.items():
        for text in ("", "\n  \n") + (("# of May\n",) if not name.endswith(".bin") else ()):
            save(folder, f"empty/{name}", text if not name.endswith(".bin") else "")
            found = lineup(folder, "replay", "x.net", "x.sheet", f"empty/{name}")
            tally.same(f"an empty {name} {text!r}: status", (found[0], found[2]), (1, ""))
            tally.holds(f"an empty {name} {text!r}", found[1], f"empty/{name}: refused, 23 no record", part, "core: answer 23 none 0 taken 0 put 0 entry 0")
    for text in ("log may\n", "# of May\nlog may"):
        save(folder, "empty/x.log", text)
        found = lineup(folder, "replay", "x.net", "x.sheet", "empty/x.log")
        tally.same(f"a log without firings, {text!r}: status", (found[0], found[2]), (0, ""))
        tally.holds(f"a log without firings, {text!r}", found[1], "empty/x.log: 0 firings from node n to node n", "core: answer 0 none 0 taken 0 put 0 entry 0")


def turned(data):
    return b"".join(data[i : i + 4][::-1] for i in range(0, len(data), 4))


def mixed(tally, folder, net, sheet):
    save(folder, "mixed/net.bin", net)
    save(folder, "mixed/sheet.bin", sheet)
    tally.holds("a text net and a binary sheet", lineup(folder, "check", "x.net", "mixed/sheet.bin")[1], "accepted")
    tally.holds("a folder's net and a text sheet", lineup(folder, "check", "mixed", "torn2.sheet")[2], "no such file (did you mean 'torn.sheet'?)")
    save(folder, "numbered.sheet", "n0:\n  t0 -> n1\nn1: p0\n  t1 -> n0\n")
    tally.holds("a folder's net and a text sheet", lineup(folder, "check", "mixed", "numbered.sheet")[1], "accepted")
    tally.holds("a folder without names is matched by its words", lineup(folder, "diff", "x.net", "x.sheet", "mixed")[1], "same: ")
    save(folder, "tail.bin", sheet + b"\1")
    for command in ("compare", "diff"):
        tally.holds(f"a tail in {command}", lineup(folder, command, "x.net", "x.sheet", "tail.bin")[1], "tail.bin: refused, 6 ragged sheet; it cannot be compared")
        tally.holds(f"a tail in {command}, after a refusal", lineup(folder, command, "x.net", "torn.sheet", "tail.bin")[1], "torn.sheet:3:1: refused, 11")
    tally.holds("a tail in compose", lineup(folder, "compose", "x.net", "tail.bin")[2], "tail.bin: 33 bytes are no whole words of four bytes: 1 over")
    save(folder, "tailed.bin", net + b"\1")
    tally.holds("a net's tail in compose", lineup(folder, "compose", "tailed.bin", "x.sheet")[1], "tailed.bin: refused, 1 ragged net")
    save(folder, "unnamed.words", "# no suffix tells\n1 2 2 1 2 1 1\n")
    tally.holds("words told by what they are", lineup(folder, "check", "unnamed.words")[1], "accepted, as a net")


def trouble(tally, folder):
    cases = [
        ("", 2, "", "usage: lineup"),
        ("chek x.net", 2, "no command 'chek' (did you mean 'check'?)", ""),
        ("check", 2, "the following arguments are required: NET", ""),
        ("bounds x.net x.sheet more", 2, "unrecognized arguments: more", ""),
        ("check --jsn x.net", 2, "--jsn", ""),
        ("spread x.net", 2, "a sheet is missing", ""),
        ("bounds x.net", 2, "a sheet is missing", ""),
        ("check x.sheet x.net", 2, "swapped", ""),
        ("check x.net x.net", 2, "swapped", ""),
        ("run x.net x.sheet S", 2, "firing 1: no transition 'S' (did you mean 's'?)", ""),
        ("replay x.net x.sheet", 2, "a log is missing", ""),
        ("replay x.net x.sheet y.log", 2, "no such file (did you mean 'x.log'?)", ""),
        ("mend x.net", 2, "a sheet is missing", ""),
        ("trim x.net", 2, "a sheet is missing", ""),
        ("compose x.net", 2, "the following arguments are required: SHEET", ""),
        ("draw x.net -o picture", 2, "the suffix tells the form", ""),
        ("draw x.net -o no/where.svg", 2, "cannot be written", ""),
        ("words x.net -o x.net/y", 2, "no folder can be made", ""),
    ]
    for command, status, errors, output in cases:
        found = lineup(folder, *command.split())
        tally.same(f"{command!r}: status", found[0], status)
        tally.holds(f"{command!r}: errors", found[2], errors)
        tally.holds(f"{command!r}: output", found[1], output)
    long = lineup(folder, "run", "x.net", "x.sheet", *["s", "u"] * 21_000)
    tally.same("a list that is too long", (long[0], "40,000 together" in long[2]), (2, True))
    hundreds = lineup(folder, "run", "x.net", "x.sheet", *["s", "u"] * 3_000)
    tally.holds("a long list", hundreds[1], "fired 6000 node 0 entry 2")


def slips(tally, folder):
    """A place that only a transition's line names, where others have a line of their own, is remarked on, and trouble with --strict."""
    said = "has no 'pl' line, though others have one, and is taken for a new place"
    save(folder, "slip.net", "pl tank1\ntr s -> tnak1\ntr u tank1 ->\ntr v tnak1 -> other\n")
    save(folder, "late.net", "tr s -> a\ntr u a ->\npl a\n")
    lines = [f"lineup: slip.net:2:9: place 'tnak1' {said} (did you mean 'tank1'?)\n", f"lineup: slip.net:4:15: place 'other' {said}\n"]
    found = lineup(folder, "check", "slip.net")
    tally.same("a slip of the pen", (found[0], found[2]), (0, "".join(lines)))
    tally.holds("a slip of the pen, as a place", found[1], "3 places: tank1, tnak1, other")
    tally.same("a slip of the pen, strictly", lineup(folder, "check", "slip.net", "--strict"), (2, "", lines[0]))
    tally.holds("a slip of the pen, strictly, in JSON", lineup(folder, "check", "slip.net", "--strict", "--json")[1], '"file": "slip.net",\n    "line": 2,\n    "column": 9')
    for name in ("shared.net", "late.net", "x.net"):
        for more in ([], ["--strict"]):
            found = lineup(folder, "check", name, *more)
            tally.same(f"no slip in {name} {more}", (found[0], found[2]), (0, ""))
    save(folder, "two forms/net.bin", struct.pack("<7I", 1, 2, 2, 1, 2, 1, 1))
    save(folder, "two forms/net.txt", "1 2 2 1 2 1 1")
    tally.same("both forms, strictly", lineup(folder, "check", "two forms", "--strict"), (2, "", "lineup: two forms has both net.bin and net.txt: net.bin is used\n"))


def disagreements(tally, folder):
    """A core that answers otherwise than lineup sees is not explained away: loud, and status 2."""
    played = core.played
    try:
        for command, is_, other in (
            ("check x.net x.sheet", "answer 0 none 0 nodes 2", "answer 0 none 0 nodes 3"),
            ("check x.net x.sheet", "out 1", "out 2"),
            ("check x.net x.sheet", "answer 0 none 0 nodes 2 arcs 2 awaits 1", "answer 15 entry 1 nodes 0 arcs 0 awaits 0"),
            ("check x.net torn.sheet", "answer 11 node 1", "answer 11 node 0"),
            ("check x.net torn.sheet", "answer 11 node 1", "answer 0 none 0"),
            ("spread x.net x.sheet", "arcs 2", "arcs 3"),
            ("spread x.net torn.sheet", "answer 11 node 1", "answer 17 node 1"),
            ("bounds x.net x.sheet", "out 1", "out 2"),
            ("run x.net x.sheet s", "node 1", "node 0"),
            ("run x.net x.sheet s s", "record 1", "record 0"),
            ("replay x.net x.sheet x.log", "taken 1", "taken 2"),
            ("replay x.net x.sheet x.log", "out 2", "out 1"),
            ("replay x.net longer.sheet x.log", "answer 24 record 1", "answer 24 record 0"),
            ("mend x.net arrows.sheet", "0 3 5 1 0 1 ", "0 3 5 1 0 2 "),
            ("mend x.net arrows.sheet", "out 1 1 1", "out 1 1 2"),
            ("mend x.net arrows.sheet", "list 3", "list 1"),
            ("mend x.net hoard.sheet", "answer 25 none 0", "answer 0 none 0"),
            ("mend x.net arrows.sheet", "answer 0 none 0 length 8 list 3", "answer 25 none 0 length 0 list 0"),
            ("trim x.net left.sheet", "out 2 3 0 3 5 1 0 1", "out 2 3 0 3 5 1 0 2"),
            ("trim x.net left.sheet", "out 0 2", "out 0 1"),
            ("trim x.net left.sheet", "answer 0 none 0 length 8 list 2", "answer 16 node 1 length 0 list 0"),
            ("trim x.net stale.sheet", "answer 9 entry 4", "answer 0 none 0"),
            ("compose two.net x.sheet other.sheet", "answer 0 none 0 length 14", "answer 30 none 0 length 0"),
            ("compose two.net x.sheet other.sheet", "out 3 6", "out 4 6"),
            ("compose two.net torn.sheet other.sheet", "sheet 1", "sheet 2"),
            ("compose two.net x.sheet", "answer 28", "answer 0"),
            ("compose over.net x.sheet", "answer 26 place 0", "answer 0 none 0"),
            ("diff x.net x.sheet greedy.sheet", "answer 20", "answer 0"),
            ("diff x.net torn.sheet x.sheet", "answer 11 node 1 length 0", "answer 0 none 0 length 0"),
            ("compare x.net x.sheet greedy.sheet", "same 0", "same 1"),
            ("compare x.net x.sheet longer.sheet", "same 1", "same 0"),
            ("compare x.net x.sheet torn.sheet", "sheet 2", "sheet 1"),
            ("compare x.net torn.sheet torn.sheet", "sheet 1", "sheet 2"),
            ("compare over.net x.sheet torn.sheet", "sheet 0", "sheet 1"),
            ("play x.net x.sheet --random 2", "nodes 2", "nodes 3"),
            ("play x.net x.sheet --random 2", "fired 2 node 0", "fired 2 node 1"),
            ("draw x.net x.sheet --run s u", "answer 0 none 0 fired", "answer 20 record 1 fired"),
            ("draw x.net x.sheet --log x.log", "answer 0 none 0 taken", "answer 24 record 1 taken"),
            ("draw x.net x.sheet --diff longer.sheet", "same 1", "same 0"),
            ("page x.net x.sheet", "nodes 2", "nodes 3"),
            ("page x.net x.sheet", "out 1", "out 2"),
            ("page x.net x.sheet x.log", "taken 1", "taken 2"),
            ("page x.net torn.sheet", "answer 11 node 1", "answer 11 node 0"),
            ("short x.net torn.sheet", "answer 11 node 1 length 0", "answer 0 none 0 length 0"),
            ("diff x.net x.sheet longer.sheet", "0 3 5 1 0 1", "0 3 5 1 0 2"),
            ("short x.net longer.sheet", "0 3 5 1 0 1 ", "0 3 5 0 1 1 "),
        ):
            core.played = lambda *arguments, is_=is_, other=other: played(*arguments).replace(is_, other, 1)
            found = lineup(folder, *command.split())
            tally.check(f"{command} with {other!r}", found[0] == 2 and "DISAGREEMENT" in found[2] and "accepted" not in found[1], found)
        for other, part in (("answr 0", "cannot be read"), ("", "0 answers to 2 calls")):
            core.played = lambda *arguments, other=other: "\n".join([other] * 2) if other else ""
            tally.holds(f"a core that says {other!r}", lineup(folder, "check", "x.net", "x.sheet")[2], part)
    finally:
        core.played = played
    tally.check("a disagreement is no trouble with a file", not issubclass(Disagreement, cli.Trouble))


def usage(tally, folder):
    """Help with an example that works, for each command; the manual page has every command and option."""
    folder = os.path.join(folder, "usage")  # the examples have files of their own
    os.makedirs(folder)
    os.symlink(os.path.join(HOME, "samples"), os.path.join(folder, "samples"))
    with open(os.path.join(HOME, "docs", "lineup.1"), encoding="utf-8") as file:
        page = file.read().replace("\\-", "-")
    top, modules = cli.parser()
    tally.holds("help", lineup(folder, "--help")[1], *commands.NAMES, "Exit status")
    for name, module in modules.items():
        help_ = lineup(folder, name, "--help")
        tally.same(f"{name} --help: status", help_[0], 0)
        tally.holds(f"{name} --help", help_[1], "example:\n  " + module.EXAMPLE, "Exit status", "--json", "-o FILE")
        example = subprocess.run(module.EXAMPLE, shell=True, cwd=folder, env={**os.environ, "PATH": HOME + ":" + os.environ["PATH"]}, capture_output=True, text=True, check=False)
        tally.check(f"{module.EXAMPLE}", example.returncode == (1 if name == "diff" else 0) and not example.stderr, (example.returncode, example.stderr))
        for option in re.findall("--[a-z]+", help_[1]):
            tally.check(f"the manual page has {option}", option in page)
        tally.check(f"the manual page has {name}", f".B lineup {name}" in page)
    version = lineup(folder, "--version")
    tally.check("--version", version[0] == 0 and re.search("commit [0-9a-f]{12}", version[1]) and "kit " in version[1], version)


def largest(tally, folder):
    """Start-up under a third of a second, the largest sheet under one."""
    best = [min(timed(folder, *command) for _ in range(5)) for command in (["--help"], ["check", "x.net", "x.sheet"])]
    tally.check(f"start-up: {best[0]:.2f} s, a small check: {best[1]:.2f} s", max(best) < 0.33, best)
    found = max(((net, sheet) for net, sheet, _ in generated.siblings(5, 120)), key=lambda pair: len(pair[1].words))
    tally.same("words of the largest sheet", len(found[1].words), 8194)
    save(folder, "large/net.txt", " ".join(map(str, found[0].words)))
    save(folder, "large/sheet.txt", " ".join(map(str, found[1].words)))
    lineup(folder, "names", "large", "-o", "large")
    for arguments in (["large"], ["large.net", "large.sheet"]):
        best = min(timed(folder, "check", *arguments) for _ in range(3))
        tally.check(f"check of {len(found[1].words)} words as {arguments}: {best:.2f} s", best < 1, best)


def timed(folder, *arguments):
    start = time.monotonic()
    program(folder, *arguments)
    return time.monotonic() - start


def installed(tally):
    """An installed copy works without the repository."""
    with tempfile.TemporaryDirectory() as prefix:
        done = subprocess.run(["make", "-s", "install", f"PREFIX={prefix}"], cwd=HOME, capture_output=True, text=True, check=False)
        tally.check("make install", done.returncode == 0, done.stdout[-300:] + done.stderr[-300:])
        lineup_ = os.path.join(prefix, "bin", "lineup")
        found = subprocess.run([lineup_, "check", os.path.join(HOME, "samples", "jetty")], cwd=prefix, capture_output=True, text=True, check=False)
        tally.same("installed: check", (found.returncode, found.stderr), (0, ""))
        found = subprocess.run([lineup_, "page", os.path.join(HOME, "samples", "jetty")], cwd=prefix, capture_output=True, text=True, check=False)
        tally.same("installed: page", (found.returncode, found.stderr), (0, ""))
        found = subprocess.run([lineup_, "--version"], cwd=prefix, capture_output=True, text=True, check=False)
        tally.holds("installed: version", found.stdout, "commit ", "kit ")
        tally.check("installed: manual page", os.path.exists(os.path.join(prefix, "share", "man", "man1", "lineup.1")))
        beside.run(tally, prefix)
        subprocess.run(["make", "-s", "uninstall", f"PREFIX={prefix}"], cwd=HOME, check=False)
        left = [name for _, _, names in os.walk(prefix) for name in names]
        tally.same("uninstalled", left, [])
