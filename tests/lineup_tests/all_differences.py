"""diff --all: no difference where the core says the same, each arrow that only one has confirmed by the core's runs, none missed on walks along both; and what is printed can be pasted."""
import json
import os
import random
import re
import subprocess
import tempfile
from collections import Counter

import generated
from called import lineup
from lineup import core, shellwords
from lineup.commands import diff
from lineup.every_difference import Differences
from lineup.home import HOME
from lineup.pair import Pair

JETTY = os.path.join(HOME, "samples", "jetty")
ODD = ["tank 1", "it's", "it's $5", "''", "'!", "$HOME", "a`b`", "-x", "--help", "{-x}", "{a}", "back\\slash", "->", "#1", "!!", "*", "~", "a;b", "ä", '"q"', "{\\-x}", "-o", "-", "a\\"]


def run(tally):
    along(tally, list(generated.siblings(29, 170)))
    with tempfile.TemporaryDirectory() as folder:
        told(tally, folder)
        pasted(tally, folder)
    words(tally)


def along(tally, pairs):
    """Generated pairs of accepted sheets."""
    chance, met, runs = random.Random(38), Counter(), []
    for i, (net, one, other) in enumerate(pairs):
        found = Differences(net.model, one.model, other.model)
        same = diff.compared([Pair(net, one), Pair(net, other)]).data["same"]
        met[same] += 1
        tally.same(f"pair {i}: none where the core says the same", found.any(), not same)
        tally.same(f"pair {i}: counts", found.counts if all(match.firings is not None for match, _ in found.counts) else [], [])
        listed = {(side, *match[:2], t) for side, match, t in found.arrows if match.firings is not None}
        for _ in range(20):
            tally.check(f"pair {i}: a walk", walked(chance, one.model, other.model) <= listed)
        for side, match, t in found.arrows[:6]:
            if match.firings is not None:
                runs.append((i, (one, other)[side], (other, one)[side], net, [*match.firings, t]))
        partners = {(side, n) for match in found.matches for side, n in enumerate(match[:2])}
        alone = {(side, n) for side, sheet in enumerate((one, other)) for n in range(len(sheet.model.nodes))} - partners
        tally.same(f"pair {i}: every node is matched, or alone", set(found.alone), alone)
        met["alone"] += bool(alone)
    answers = core.ask(*(core.run(net.words, sheet.words, record) for _, here, there, net, record in runs for sheet in (here, there)))
    for (i, *_, record), here, there in zip(runs, answers[::2], answers[1::2]):
        tally.same(f"pair {i}: only one fires {record}", (here.number, there.fault()), (0, (20, "record", len(record) - 1)))
    tally.check(f"pairs met: {dict(met)}, runs {len(runs)}", min(met[True], met[False], met["alone"]) >= 20 and len(runs) > 60)


def walked(chance, one, other):
    """The arrows that a walk along both sheets finds in one of them alone, at its end."""
    n = m = 0
    for _ in range(60):
        differing = [(0, n, m, t) for t in one.arcs[n] if t not in other.arcs[m]] + [(1, n, m, t) for t in other.arcs[m] if t not in one.arcs[n]]
        if differing:
            return set(differing)
        t = chance.choice(sorted(one.arcs[n]))
        n, m = one.arcs[n][t], other.arcs[m][t]
    return set()


def save(folder, name, text):
    with open(os.path.join(folder, name), "w", encoding="utf-8") as file:
        file.write(text)


def told(tally, folder):
    """The lines and the data, of accepted sheets, of those that are the same, and of a refused one."""
    net, may, june, export = (os.path.join(JETTY, name) for name in ("jetty.net", "may.sheet", "june.sheet", "export.sheet"))
    status, output, errors = lineup(folder, "diff", "--all", net, may, june)
    tally.same("May and June: status", (status, errors), (1, ""))
    expected = [
        "every difference, found by lineup along the arrows:",
        f"  {may}:13:3: node off, rework -> sampled: not at node off of {june}",
        f"  {june}:13:3: node off, berth -> both: not at node off of {may}",
        f"  {june}:14:1: node both is like none of {may}: it holds jetty header tank2; rework -> again",
        f"  {june}:16:1: node again is like none of {may}: it holds jetty line; passes -> berthed2, fails -> both",
        f"  node idle is idle and empty in {june}",
    ]
    tally.same("May and June", output.splitlines()[-6:], expected)
    tally.same("May and June: what a diff says comes first", output.startswith(lineup(folder, "diff", net, may, june)[1]), True)
    found = json.loads(lineup(folder, "diff", "--all", "--json", net, may, june)[1])["differences"]
    arrow = {"sheet": may, "nodes": ["off", "off"], "transition": "rework", "target": "sampled", "line": 13, "column": 3}
    tally.same("May and June in JSON", (found["arrows"][0], found["counts"], [node["node"] for node in found["nodes"]]), (arrow, [], ["both", "again"]))
    tally.same("a node in JSON", found["nodes"][0], {"sheet": june, "node": "both", "holds": {"jetty": 1, "header": 1, "tank2": 1}, "arrows": {"rework": "again"}, "line": 14, "column": 1})
    tally.same("a match in JSON", found["matched"][3:5], [{"nodes": ["half", "half"], "firings": ["berth", "line-up", "passes"]}, {"nodes": ["off", "off"], "firings": ["berth", "line-up", "fails"]}])
    same = lineup(folder, "diff", "--all", net, may, JETTY)
    tally.same("the same: status", (same[0], same[2]), (0, ""))
    tally.holds("the same", same[1], "same: ", "  none: nodes, names, arrows and counts are the same\n")
    stale = lineup(folder, "diff", "--all", net, may, export)
    tally.same("a refused one: status", (stale[0], stale[2]), (2, ""))
    tally.holds("a refused one", stale[1], "it cannot be compared", f"{may}:19:19: node full holds tank1 2, and node full of {export} holds 1\n", f"{may}:10:1: node half holds line 0, and node half of {export} holds 1\n")
    counts = json.loads(lineup(folder, "diff", "--all", "--json", net, may, export)[1])["differences"]["counts"]
    tally.same("a refused one in JSON", (len(counts), counts[3]), (5, {"nodes": ["full", "full"], "place": "tank1", "counts": [2, 1]}))
    likenesses(tally, folder)


def likenesses(tally, folder):
    """Nodes that no common firings lead to: the same counts and arrows, or the same firings with other counts."""
    save(folder, "x.net", "pl a\npl b\ntr s -> a\ntr t a ->\ntr v -> b\ntr w b ->\n")
    save(folder, "one.sheet", "n:\n  s -> m\nm: a\n  t -> n\nx: b\n  w -> y\ny:\n  s -> m\n")
    save(folder, "other.sheet", "n:\n  s -> m\nm: a\n  t -> n\nu: b\n  w -> n\nz: b*2\n  s -> m\n")
    lines = lineup(folder, "diff", "--all", "x.net", "one.sheet", "other.sheet")[1].splitlines()
    expected = ["  one.sheet:6:3: node x, w -> y: from node u of other.sheet it leads to n", "  one.sheet:7:1: node y holds b 0, and node z of other.sheet holds 2", "  node x is u in other.sheet", "  node y is z in other.sheet"]
    tally.same("likenesses", lines[-4:], expected)
    found = json.loads(lineup(folder, "diff", "--all", "--json", "x.net", "one.sheet", "other.sheet")[1])["differences"]
    tally.same("likenesses in JSON", (found["targets"], found["matched"][-1]), ([{"nodes": ["x", "u"], "transition": "w", "targets": ["y", "n"]}], {"nodes": ["y", "z"], "firings": None}))


def pasted(tally, folder):
    """What only one sheet allows, pasted behind `lineup run` by a shell: the sheet fires it, and the other does not."""
    braced = ["{" + shellwords.escaped(name) + "}" for name in ODD]
    for i, (name, other) in enumerate(zip(braced, braced[1:] + braced[:1])):
        save(folder, "o.net", f"pl a\npl b\ntr {name} -> a\ntr {other} a -> b\ntr u a b ->\ntr w b ->\n")
        save(folder, "one.sheet", f"n:\n  {name} -> m\nm: a\n  {other} -> o\no: b\n  w -> n\n")
        save(folder, "other.sheet", f"n:\n  {name} -> m\nm: a\n  {other} -> o\no: b\n  {name} -> p\np: a b\n  u -> n\n")
        status, output, errors = lineup(folder, "diff", "o.net", "one.sheet", "other.sheet")
        tally.same(f"{name}: differ", (status, errors), (1, ""))
        for sheet, there, list_ in pastes(output):
            words_ = subprocess.run(["bash", "-c", f"printf '%s\\0' {list_}"], capture_output=True, text=True, check=False).stdout.split("\0")[:-1]
            for path, should in ((sheet, 0), (there, 1)):
                done = lineup(folder, "run", "o.net", path, *words_)
                tally.same(f"{name}: pasted {list_} for {path}", (done[0], done[2]), (should, ""))
            if i < 4:  # by the program and its shell, too, which takes longer
                done = subprocess.run(["bash", "-c", f"{HOME}/lineup run o.net {sheet} {list_}"], cwd=folder, capture_output=True, text=True, check=False)
                tally.same(f"{name}: pasted {list_} in a shell", (done.returncode, done.stderr), (0, ""))
        tally.same(f"{name}: two lists", len(pastes(output)), 2)
    status, output, _ = lineup(folder, "diff", os.path.join(JETTY, "jetty.net"), os.path.join(JETTY, "may.sheet"), os.path.join(JETTY, "june.sheet"), "--json")
    tally.same("the list in JSON", [side["run"] for side in json.loads(output)["sides"]], ["berth line-up fails rework", "berth line-up fails berth"])


def pastes(output):
    """The lists that are told, with the sheet that allows each, and the other."""
    return [(sheet, {"one.sheet": "other.sheet", "other.sheet": "one.sheet"}[sheet], list_) for sheet, list_ in re.findall(r"(?m)^only (\S+) allows: (.*)$", output)]


def words(tally):
    """Every odd name comes back, whichever others are known."""
    for name in ODD:
        for known in (ODD, [name]):
            shown = subprocess.run(["bash", "-c", f"printf '%s\\n' {shellwords.word(name, known)}"], capture_output=True, text=True, check=False).stdout[:-1]
            tally.check(f"{name!r} is quoted as plainly as it can be", shellwords.word(name, known) == '"it\'s"' or name != "it's")
            tally.same(f"{name!r} as a word", (shellwords.read(shown, known), shown.startswith("-")), (name, False))
