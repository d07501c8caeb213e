"""Times: the core's are found again along the arrows, with runs that take so long; durations as text and as words; refusals 32 and 33; the bar chart."""
import json
import os
import random
import struct
import tempfile
from collections import Counter
from xml.etree import ElementTree

import generated
from called import lineup
from lineup import core, explain, faults, inputs, netfile, reacting, timesfile, words
from lineup.inputs import Source

NET = "tr s -> a\ntr b a -> a\ntr u a ->\ntr w a -> c\ntr x c ->\n"
SHEET = "n:\n  s -> m\nm: a\n  b -> o\n  u -> n\n  w -> q\no: a\n  b -> p\n  u -> n\n  w -> q\np: a\n  b -> p\n  u -> n\n  w -> q\nq: c\n  x -> n\n"
FILES = {
    "x.net": "tr s -> a\ntr u a ->\ntr w a -> c\ntr x c ->\n",
    "x.sheet": "n:\n  s -> m\nm: a\n  u -> n\n  w -> q\nq: c\n  x -> n\n",
    "x.times": "times x\ns 1 2   # remarks are read over\nx 7 9\nu 10 20\n{w} 0 30\n",
    "loop.net": NET,
    "loop.sheet": SHEET,
    "loop.times": "s 0 0\nb 0 0\nu 0 0\nw 0 0\nx 0 0\n",
    "late.times": "s 1 2\nu 3 2\nw 5 4\nx 1 1\n",
    "long.times": "s 0 0\nu 0 1000001\nw 0 0\nx 0 0\n",
}


def run(tally):
    found_again(tally)
    with tempfile.TemporaryDirectory() as folder:
        for name, text in FILES.items():
            save(folder, name, text)
        told(tally, folder)
        as_words(tally, folder)
        troubles(tally, folder)
        drawn(tally, folder)
        disagreements(tally, folder)
    in_order(tally)


def save(folder, name, data):
    path = os.path.join(folder, name)
    os.makedirs(os.path.dirname(path), exist_ok=True)
    with open(path, "wb") as file:
        file.write(data if isinstance(data, bytes) else data.encode())


# ---- beside the core, on generated sheets


def found_again(tally):
    """Of accepted sheets with durations, some of them bad, the number, the position and every time."""
    chance = random.Random(112)
    cases = [(net, sheet, durations(chance, len(net.model.transitions))) for net, *both in generated.siblings(11, 160) for sheet in both]
    cases += [(net, sheet, durations(chance, 3)) for net, sheet, _ in generated.damaged(13, 120)]
    answers = core.ask(*(core.times(net.words, sheet.words, times.words) for net, sheet, times in cases))
    met = Counter()
    for i, ((net, sheet, times), answer) in enumerate(zip(cases, answers)):
        met[answer.number] += 1
        fault = explain.again(net, sheet, times=times) or faults.Fault(0)
        tally.same(f"times {i}: {answer.line}", tuple(fault), answer.fault())
        if answer.number in (32, 33):
            lines = explain.explain(answer, net, sheet, times=times).lines
            tally.check(f"times {i}: told", lines and "None" not in " ".join(lines), lines)
        if not answer.number:
            exact(tally, f"times {i}", net.model, sheet.model, times.model, answer)
    tally.check("both refusals and reports were met", all(met[number] for number in (0, 32, 33)), met)


def durations(chance, transitions):
    """Durations as words, one in six of them at fault."""
    early = [chance.choice((0, 1, chance.randrange(1000), chance.randrange(reacting.LONGEST + 1))) for _ in range(transitions)]
    late = [chance.choice((seconds, chance.randrange(seconds, reacting.LONGEST + 1), reacting.LONGEST)) for seconds in early]
    found = [transitions, *early, *late]
    kind = chance.randrange(18)
    if kind == 0:
        found[chance.randrange(len(found))] = chance.choice((0, reacting.LONGEST + 1, 4_294_967_295))
    elif kind == 1:
        found = found[:-1] if chance.random() < 0.5 else found + [0]
    elif kind == 2:
        found[1 + chance.randrange(transitions)] = reacting.LONGEST
    source = Source("generated/times.txt", "decimal words")
    source.words = found
    if not reacting.duration_shape(found, transitions):
        source.model = timesfile.Durations(found[1 : 1 + transitions], found[1 + transitions :])
    return source


def exact(tally, what, net, sheet, times, answer):
    """The words of the core, and that each run is one, waits nowhere on its way, and takes as long as it is said to."""
    waits, expected = set(sheet.awaits(net)), []
    for n, t, best, worst in reacting.Reactions(net, sheet, times).all():
        expected += [best.seconds, worst.seconds]
        for found, seconds in ((best, times.early), (worst, times.late)):
            node = n
            for i, u in enumerate(found.fires):
                tally.check(f"{what}: busy on the way", (node in waits) == (i == 0))
                node = sheet.arcs[node][u]
            tally.same(f"{what}: a run", (found.fires[0], node, node in waits, sum(seconds[u] for u in found.fires)), (t, found.node, True, found.seconds))
    tally.same(f"{what}: the report", answer.out[: answer.own["length"]], expected)


# ---- the command


def told(tally, folder):
    cases = [
        (0, "times x.net x.sheet x.times", [
            "x.times: from 1 node that waits to the next, in seconds\n", "  await node  source  best  worst\n  n           s          8     41\n",
            "found by lineup along the arrows:\n", "n, s, best 8: s 1, w 0, x 7 -> n\n", "n, s, worst 41: s 2, w 30, x 9 -> n\n", "  core: answer 0 none 0 length 2\n",
        ]),
        (1, "times x.net x.sheet late.times", ["late.times:2:1: refused, 32 bad duration", "u takes at least 3 seconds and at most 2: the earliest is above the latest", "core: answer 32 entry 1 length 0"]),
        (1, "times x.net x.sheet long.times", ["long.times:2:1: refused, 32", "u takes up to 1000001 seconds, and a duration is at most 1,000,000"]),
        (1, "times loop.net loop.sheet loop.times", ["loop.sheet:11:1: refused, 33 endless reaction", "from node p: b -> p", "a way out does not help: u at p, w at p may never come", "core: answer 33 node 3 length 0"]),
        (1, "times x.net x.net x.times", ["swapped"]),
    ]
    for status, command, parts in cases[:-1]:
        found = lineup(folder, *command.split())
        tally.same(f"{command}: status", (found[0], found[2]), (status, ""))
        tally.holds(command, found[1], *parts)
    tally.holds(cases[-1][1], lineup(folder, *cases[-1][1].split())[2], *cases[-1][2])
    found = json.loads(lineup(folder, "times", "x.net", "x.sheet", "x.times", "--json")[1])
    run_ = {"fires": ["s", "w", "x"], "node": "n"}
    tally.same("times as JSON", found["reactions"], [{"node": "n", "source": "s", "best": 8, "worst": 41, "best_run": run_, "worst_run": run_}])
    tally.same("times as JSON: words", (found["accepted"], found["words"], found["core"]), (True, [8, 41], ["answer 0 none 0 length 2"]))


def as_words(tally, folder):
    """A folder of words, and durations as words beside it or alone."""
    tally.same("words", lineup(folder, "words", "x.net", "x.sheet", "-o", "w")[0], 0)
    cases = {
        "4 1 10 0 7 2 20 30 9": (0, ["times.txt: from 1 node that waits", "best 8", "worst 41"]),
        "": (1, ["refused, 32 bad duration", "there is no word"]),
        "3 1 10 0 7 2 20 30 9": (1, ["times.txt:1:1: refused, 32 bad duration", "the first word says 3 transitions, and the net has 4"]),
        "4 1 10 0 7 2 20 30": (1, ["4 transitions make 1 + 2 * 4 = 9 words; there are 8, 1 too few", "core: answer 32 none 0 length 0"]),
        "4 1 10 0 7 2 20 30 9 9": (1, ["there are 10, 1 too many"]),
        "4 1 10 0 7 2 20 30 6": (1, ["times.txt:1:10: refused, 32", "x takes at least 7 seconds and at most 6"]),
    }
    for found, (status, parts) in cases.items():
        save(folder, "w/times.txt", found)
        told_ = lineup(folder, "times", "w", "w")
        tally.same(f"durations {found!r}: status", (told_[0], told_[2]), (status, ""))
        tally.holds(f"durations {found!r}", told_[1], *parts)
    save(folder, "w/times.bin", struct.pack("<9I", 4, 1, 10, 0, 7, 2, 20, 30, 9))
    tally.holds("durations of bytes", lineup(folder, "times", "w", "w")[1], "w/times.bin: from 1 node")
    save(folder, "many.bin", struct.pack("<100I", 4, *[0] * 99))
    tally.holds("durations that are too long", lineup(folder, "times", "w", "many.bin")[1], "there are 100, 91 too many")
    net = netfile.read("x.net", FILES["x.net"])
    model = timesfile.read("x.times", FILES["x.times"], net)
    tally.same("read", words.duration_words(model), [4, 1, 10, 0, 7, 2, 20, 30, 9])
    again = timesfile.read("x.times", timesfile.write(net, model), net)
    tally.same("written and read", (words.duration_words(again), again.name), (words.duration_words(model), "x"))


def troubles(tally, folder):
    save(folder, "bad.times", "s 1 2\n")
    found = lineup(folder, "times", "x.net", "x.sheet", "bad.times")
    tally.same("missing durations", (found[:2], found[2]), ((2, ""), "lineup: bad.times:1:1: no durations for u, w, x\n"))
    for command, message in (
        ("times x.net x.sheet", "durations are missing"),
        ("times x.net x.sheet y.times", "no such file (did you mean 'x.times'?)"),
        ("times x.net x.sheet x.times -o x.png", "x.png: a bar chart is an .svg"),
        ("times w", "durations are missing"),
    ):
        found = lineup(folder, *command.split())
        tally.same(f"{command}: status", found[:2], (2, ""))
        tally.holds(command, found[2], message)
    save(folder, "tail.bin", b"\4\0\0\0\1")
    tally.holds("bytes that are no words", lineup(folder, "times", "w", "tail.bin")[2], "5 bytes are no whole words")


def drawn(tally, folder):
    found = lineup(folder, "times", "x.net", "x.sheet", "x.times", "-o", "x.svg")
    tally.same("the chart: status", (found[0], found[2]), (0, ""))
    tally.holds("the chart: told", found[1], "  core: answer 0 none 0 length 2\n", "written: x.svg\n")
    with open(os.path.join(folder, "x.svg"), encoding="utf-8") as file:
        picture = ElementTree.fromstring(file.read())
    space = "{http://www.w3.org/2000/svg}"
    bars = [float(bar.get("width")) for bar in picture.findall(f"{space}rect")[1:]]
    tally.same("the chart: bars", len(bars), 2)
    tally.check("the chart: the best within the worst", bars[1] < bars[0] and abs(bars[1] / bars[0] - 8 / 41) < 0.01, bars)
    texts = [text.text for text in picture.findall(f"{space}text")]
    tally.holds("the chart: texts", "|".join(texts), "n, s", "8 to 41 s", "core: answer 0 none 0 length 2")
    right = float(picture.get("width"))
    tally.check("the chart: nothing beyond its edge", all(float(text.get("x")) < right for text in picture.findall(f"{space}text")))
    tally.same("a refused chart is not written", (lineup(folder, "times", "x.net", "x.sheet", "late.times", "-o", "none.svg")[0], os.path.exists(os.path.join(folder, "none.svg"))), (1, False))
    zero = lineup(folder, "times", "x.net", "x.sheet", zeros(folder), "-o", "zero.svg")
    tally.same("a chart of zeros", (zero[0], zero[2]), (0, ""))


def zeros(folder):
    save(folder, "zero.times", "s 0 0\nu 0 0\nw 0 0\nx 0 0\n")
    return "zero.times"


def disagreements(tally, folder):
    played = core.played
    try:
        for command, is_, other in (
            ("times x.net x.sheet x.times", "out 8 41", "out 8 40"),
            ("times x.net x.sheet x.times", "answer 0 none 0 length 2", "answer 33 node 1 length 0"),
            ("times x.net x.sheet late.times", "answer 32 entry 1", "answer 32 entry 2"),
            ("times loop.net loop.sheet loop.times", "answer 33 node 3", "answer 33 node 1"),
        ):
            core.played = lambda *arguments, is_=is_, other=other: played(*arguments).replace(is_, other, 1)
            found = lineup(folder, *command.split())
            tally.check(f"{command} with {other!r}", found[0] == 2 and "DISAGREEMENT" in found[2] and "best" not in found[1], found)
    finally:
        core.played = played


def in_order(tally):
    """The sample: its words are its texts', and its picture is drawn from it."""
    folder = next(folder for folder in generated.samples() if os.path.basename(folder) == "jetty-times")
    net = inputs.net(os.path.join(folder, "jetty.net"))
    texts = [inputs.sheet(os.path.join(folder, "july.sheet"), net).words, inputs.durations(os.path.join(folder, "july.times"), net).words]
    tally.same("the sample's words", [inputs.net(folder).words, inputs.sheet(folder, inputs.net(folder)).words, inputs.durations(folder, net).words], [net.words, *texts])
    with tempfile.TemporaryDirectory() as place:
        lineup(place, "times", *(os.path.join(folder, name) for name in ("jetty.net", "july.sheet", "july.times")), "-o", "july.svg")
        pictures = []
        for where in (place, folder):
            with open(os.path.join(where, "july.svg"), encoding="utf-8") as file:
                pictures.append(file.read())
        tally.same("the sample's picture", *pictures)
