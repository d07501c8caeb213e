"""check --all: the first fault is the core's, what the core finds in each of several faults alone stands in the list, and what is advised makes the fault go away."""
import json
import os
import re
import tempfile
from collections import Counter

import generated
from called import lineup
from lineup import core, every_fault, faults, words
from lineup.explain_schedule import ways_to_whole
from lineup.home import HOME
from lineup.pair import Pair

JETTY = os.path.join(HOME, "samples", "jetty")

# edits of May's sheet that do not touch one another, each with a fault of its own
EDITS = {
    "an outcome is missing": ("  fails   -> off\n", ""),
    "an outcome too many": ("  line-up -> sampled\n", "  line-up -> sampled\n  berth -> berthed2\n"),
    "no arrow": ("  line-up -> sampled2\n", ""),
    "another start": ("idle:      header ", "idle:      header line"),
    "a wrong count": ("full:      header tank1*2", "full:      header tank1*3"),
    "too little": ("  berth   -> berthed2\n", "  load    -> idle\n"),
    "a count of 0": ("off:       header tank2", "off:       header tank2 jetty*0"),
    "nobody comes here": ("off2:", "spare:     header\n  berth   -> berthed\noff2:"),
    "nor here": ("sampled2:", "sheds:     header tank2\n  rework  -> sampled\nsampled2:"),
    "the wrong node": ("rework  -> sampled2", "rework  -> sampled"),
}


def run(tally):
    cases = list(generated.damaged(23, 900))
    answers = core.ask(*(core.check(net.words, sheet.words) for net, sheet, _ in cases))
    found = [(i, net, sheet, answer) for i, ((net, sheet, _), answer) in enumerate(zip(cases, answers))]
    first(tally, found)
    whole_choices(tally, [(i, net, sheet, answer) for i, net, sheet, answer in found if answer.number == 12])
    mendings(tally, found)
    with tempfile.TemporaryDirectory() as folder:
        planted(tally, folder)
        told(tally, folder)
        disagreements(tally, folder)


def first(tally, cases):
    """Of generated damage, accepted sheets have no fault, and the first of a refused one is the core's; the status and the refusal are those of a check."""
    met, lengths = Counter(), Counter()
    for i, net, sheet, answer in cases:
        faults_ = every_fault.of(net, sheet)
        tally.same(f"case {i}: {answer.line}", tuple(faults_[0]) if faults_ else (0, "none", 0), answer.fault())
        if not answer.number:
            continue
        report, alone = every_fault.refusal(Pair(net, sheet), answer), Pair(net, sheet).refusal(answer)
        tally.same(f"case {i}: as a check", (report.status, report.data["refusal"], report.data["core"]), (1, alone.data["refusal"], alone.data["core"]))
        tally.same(f"case {i}: one verdict", [fault["verdict"] for fault in report.data["faults"]], [True] + [False] * (len(faults_) - 1))
        tally.check(f"case {i}: told", not re.search(r"\bNone\b|Counter|\bdict", "\n".join(report.lines)) and "  <- the core's verdict" in report.lines[1], report.lines[:4])
        met.update(fault.number for fault in faults_)
        lengths[min(len(faults_), 3)] += 1
    tally.same("numbers met", sorted(met), [*range(1, 18), 26, 27])
    tally.check(f"how many faults: {dict(lengths)}", min(lengths[many] for many in (1, 2, 3)) >= 20)


def whole_choices(tally, cases):
    """Of a torn choice every way that is told makes it whole: the core finds nothing at this node any more."""
    calls = []
    for i, net, sheet, answer in cases:
        n, offered = answer.index, sorted(sheet.model.arcs[answer.index])
        for way in ways_to_whole(net.model, offered, n == 0):
            mended = words.sheet_of(sheet.words, net.model, sheet.model.nodes)
            mended.arcs[n] = {t: mended.arcs[n].get(t, 0) for t in {*offered, *way[0]} - {*way[1]}}
            calls.append((i, n, net, words.sheet_words(net.model, mended)))
    answers = core.ask(*(core.check(net.words, sheet) for _, _, net, sheet in calls))
    for (i, n, *_), answer in zip(calls, answers):
        tally.check(f"case {i}: a whole choice", not (answer.number in (11, 12) and answer.index <= n) and (n or answer.number != 13), answer.line)
    tally.check("torn choices", len(calls) > 60, len(calls))


def mendings(tally, cases):
    """`lineup mend` is advised exactly where a fault may be one of counts, and the core mends the sheet."""
    asked = [case for case in cases if case[3].number in (9, 10, 14, 15, 27)]
    met = Counter()
    for (i, net, sheet, answer), mended in zip(asked, core.ask(*(core.mend(net.words, sheet.words) for _, net, sheet, _ in asked))):
        advised = any("lineup mend" in line for line in Pair(net, sheet).refusal(answer).lines)
        tally.same(f"case {i}: {answer.line}: mend is advised", advised, mended.number == 0)
        met[answer.number, advised] += 1
    tally.same("advised and not", [key for key in [(15, True), (15, False)] if not met[key]], [])
    others = [case for case in cases if case[3].number in (11, 12, 13, 16, 17)][:60]
    for i, net, sheet, answer in others:
        tally.check(f"case {i}: {answer.line}: mend is not advised", "lineup mend" not in "\n".join(Pair(net, sheet).refusal(answer).lines))


def planted(tally, folder):
    """What the core says of each fault alone is in the list of all of them, and of every two."""
    with open(os.path.join(JETTY, "may.sheet"), encoding="utf-8") as file:
        may = file.read()
    alone = {what: faults_of(folder, edited(may, [what]))[0] for what in EDITS}
    tally.same("numbers of the faults alone", sorted(fault[0] for fault in alone.values()), [9, 10, 11, 12, 12, 14, 15, 15, 16, 16])
    several = [list(EDITS)] + [[one, other] for i, one in enumerate(EDITS) for other in list(EDITS)[i + 1 :]]
    for edits in several:
        found = faults_of(folder, edited(may, edits))
        tally.same(f"{edits}: all are there", [alone[what] for what in edits if alone[what] not in found], [])
    tally.same("the sheet as it was", faults_of(folder, may), [])


def edited(text, edits):
    for what in edits:
        assert text.count(EDITS[what][0]) == 1, what
        text = text.replace(*EDITS[what])
    return text


def faults_of(folder, text):
    """Number, node, transition and place of each fault, the verdict first."""
    with open(os.path.join(folder, "x.sheet"), "w", encoding="utf-8") as file:
        file.write(text)
    status, output, errors = lineup(folder, "check", "--all", os.path.join(JETTY, "jetty.net"), "x.sheet", "--json")
    found = json.loads(output).get("faults", [])
    assert (status, errors) == (1 if found else 0, ""), (status, errors)
    return [(fault["number"], fault["node"], fault["transition"], fault["place"]) for fault in found]


def told(tally, folder):
    """The lines."""
    files = {
        "x.net": "pl a\npl b <= 1\ntr s -> a\ntr u a ->\ntr v a -> b\ntr w b ->\n",
        "torn.sheet": "n:\n  s -> m\nm: a\n  u -> n\no: b\n  w -> n\n",
        "mixed.sheet": "n:\n  s -> m\nm: a\n  u -> n\n  v -> o\n  w -> n\no: b\n  w -> n\n",
        "root.sheet": "n:\n  s -> m\n  w -> n\nm: a\n  u -> n\n  v -> o\no: b\n  w -> n\n",
        "stale.sheet": "n:\n  s -> m\nm: a*2\n  u -> n\n  v -> o\no: b*2\n  w -> n\n",
        "plain.net": "pl a\ntr s -> a\ntr u a ->\n",
        "low.sheet": "n:\n  s -> o\nm:\n  u -> p\no: a\n  s -> m\np: a\n  u -> n\n",
        "dead.sheet": "n:\n  s -> m\nm: a\n",
        "bad.net": "pl a (3) <= 2\npl b (2) <= 1\ntr s a*0 -> a\ntr u b*0 -> a\n",
        "two.net": "pl a (3) <= 2\npl b (2) <= 1\ntr s a -> a\n",
    }
    for name, text in files.items():
        with open(os.path.join(folder, name), "w", encoding="utf-8") as file:
            file.write(text)
    net = "  the sheet is looked at when the net is right\n"
    cases = {
        "x.net torn.sheet": ["torn.sheet: refused, 2 faults that stand by themselves; the core's verdict is the first\n  torn.sheet:3:1: 12 torn choice  <- the core's verdict\n", "  torn.sheet:5:1: 16 stray node\n", "for one whole choice: add the arrow for v\n", "  core: answer 12 node 1"],
        "x.net mixed.sheet": ["mixed.sheet: refused, 2 faults", "for one whole choice: take away the arrow for w; or take away the arrows for u, v\n", "mixed.sheet:6:3: 14 starved arc\n    node m, w -> n: b: w takes 1, but node m holds 0\n"],
        "x.net root.sheet": ["for one whole choice: take away the arrow for w\n", "  13 busy root at n may be gone with these\n"],
        "x.net stale.sheet": ["node n, s -> m: a: 0 - 0 + 1 = 1, but node m says 2\n    by this arrow node m should hold a 1 and not 2\n", "  the arrows are right: lineup mend puts the counts right (the core mends them: answer 0 none 0 length "],
        "plain.net low.sheet": ["low.sheet:4:3: 14 starved arc  <- the core's verdict\n    node m, u -> p: a: u takes 1, but node m holds 0\n", "  low.sheet:6:3: 15 wrong landing\n    node o, s -> m: a: 1 - 0 + 1 = 2, but node m says 0\n    by this arrow node m should hold a 2 and not 0\n", "  the arrows are right: lineup mend puts"],
        "x.net dead.sheet": ["dead.sheet: refused, 1 fault\n  dead.sheet:3:1: 11 dead end  <- the core's verdict\n", "  17 no way home at m may be gone with these\n"],
        "bad.net torn.sheet": ["bad.net: refused, 3 faults", "bad.net:3:6: 4 net weight  <- the core's verdict\n", "bad.net:4:6: 4 net weight\n", "bad.net:1:13: 26 overfull start\n    a starts with 3, and can hold at most 2\n    b starts with 2, and can hold at most 1\n", "  5 no source may be gone with these\n", net],
        "two.net": ["two.net: refused, 2 faults that stand by themselves", "26 overfull start  <- the core's verdict", "5 no source\n    every transition takes something: s takes a\n"],
    }
    for command, parts in cases.items():
        if command == "bad.net torn.sheet":
            with open(os.path.join(folder, "torn.sheet"), "w", encoding="utf-8") as file:
                file.write("n:\n  s -> n\n")
        found = lineup(folder, "check", "--all", *command.split())
        tally.same(f"{command}: status", (found[0], found[2]), (1, ""))
        tally.holds(command, found[1], *parts)
        tally.same(f"{command}: the core", found[1].splitlines()[-1], lineup(folder, "check", *command.split())[1].splitlines()[-1])
    tally.same("a remedy stands once for each number", lineup(folder, "check", "--all", "x.net", "stale.sheet")[1].count("to do: correct the counts of that node"), 1)
    tally.same("an accepted sheet has none", lineup(folder, "check", "--all", JETTY), lineup(folder, "check", JETTY))


def disagreements(tally, folder):
    """A core whose verdict is not the first fault found is not explained away."""
    played = core.played
    try:
        for is_, other in (("answer 15 entry 0", "answer 15 entry 1"), ("answer 15 entry 0", "answer 14 entry 0"), ("answer 15 entry 0", "answer 0 none 0")):
            core.played = lambda *arguments, is_=is_, other=other: played(*arguments).replace(is_, other, 1)
            found = lineup(folder, "check", "--all", "x.net", "stale.sheet")
            tally.check(f"a core that says {other!r}", found[0] == 2 and "DISAGREEMENT" in found[2] and not found[1], found)
    finally:
        core.played = played
