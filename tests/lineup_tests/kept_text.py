"""mend, trim and short on texts: what does not change stays as it is, byte for byte; what they write says what the core wrote; and --diff makes the one of the other."""
import difflib
import json
import os
import random
import re
import tempfile
from collections import Counter

import generated
import round_trip
from called import lineup
from lineup import core, inputs, netfile, sheet_patch, sheetfile, words
from lineup.home import HOME

JETTY = os.path.join(HOME, "samples", "jetty")
NET = "pl a\npl {b 1}\ntr s -> a\ntr u a -> {b 1}\ntr w {b 1} ->\n"

# a sheet, the command, the sheet that comes of it
TEXTS = {
    "counts change in place": ("mend", "# head\nn:\n\n  s -> m   # waits\nm:   {b 1}*3  a*2     # two too many\n\tu->o\no: a  {b 1}*0 # none\n  w -> n\n\n# tail\n",
                               "# head\nn:\n\n  s -> m   # waits\nm:   a                # two too many\n\tu->o\no: {b 1}      # none\n  w -> n\n\n# tail\n"),
    "counts are filled in as most are": ("mend", "n:\n  s -> m\nm:\n  u -> middle\nmiddle:\n  w -> n\n", "n:\n  s -> m\nm:       a\n  u -> middle\nmiddle:  {b 1}\n  w -> n\n"),
    "a longer one pushes its remark": ("mend", "n:\n  s -> m\nm: a\n  u -> o\no: a#x\n  w -> n", "n:\n  s -> m\nm: a\n  u -> o\no: {b 1}#x\n  w -> n"),
    "nothing to mend": ("mend", "\ufeffsheet  x\r\nn :\r\n  s-> m\r\n m: {a}*1\r\n u -> o\r\no:{b 1}\r\n w -> n", None),
    "a node goes with its remarks": ("trim", "n:\n  s -> m\n\n# left over,\n# since May\nx: a   # gone\n  # here too\n  u -> y\n\n# kept\n\ny: a*7\nm: a\n  u -> o\no: {b 1}\n  w -> n\n# about z\nz:\n\n# end\n",
                                     "n:\n  s -> m\n\n# kept\n\nm: a\n  u -> o\no: {b 1}\n  w -> n\n\n# end\n"),
    "nothing to trim": ("trim", "n:\n  s -> m  # x\nm: a*9\n", None),
    "a name of the sheet stays": ("trim", "n:\n  s -> n\nx:\nsheet may\n  s -> n\n", "n:\n  s -> n\nsheet may\n"),
    "arrows lead to the one that stays": ("short", "sheet x # name\nn:   # first\n  s -> m2  # to the second\n# the second\nm2: a\n  u -> o\no: {b 1}\n  w -> n2\nn2:\n  s -> m # to the third\n# the third\nm: a\n  u -> o2\no2: {b 1}\n  w -> n\n",
                                         "sheet x # name\nn:   # first\n  s -> m2  # to the second\n# the second\nm2: a\n  u -> o\no: {b 1}\n  w -> n\n"),
    "nothing to merge": ("short", "o: # the first\n  s -> {m 1}\n{b}: {b 1}\n  w -> o\n{m 1}: a\n  u -> b\n", None),
}


def run(tally):
    with tempfile.TemporaryDirectory() as folder:
        save(folder, "x.net", NET)
        for what, (command, text, should) in TEXTS.items():
            by_hand(tally, folder, what, command, text, text if should is None else should)
        own_remarks(tally, folder)
        patched_wrongly(tally, folder)
        samples(tally, folder)
        decorated(tally, folder)


def save(folder, name, text):
    with open(os.path.join(folder, name), "wb") as file:
        file.write(text.encode())


def read(folder, name):
    with open(os.path.join(folder, name), "rb") as file:
        return file.read().decode()


def without_mark(text):
    return re.sub(r"# written by lineup, [0-9a-f]{8}\n\Z", "", text)


def by_hand(tally, folder, what, command, text, should):
    save(folder, "x.sheet", text)
    found = lineup(folder, command, "x.net", "x.sheet", "-o", "out.sheet", "--force")
    tally.same(f"{what}: status", (found[0], found[2]), (0, ""))
    result = read(folder, "out.sheet")
    same = text == should
    tally.same(what, without_mark(result) if not same else result, should if same or should.endswith("\n") else should + "\n")
    tally.same(f"{what}: marked where it changed", result != without_mark(result), not same)
    tally.same(f"{what}: again", (lineup(folder, command, "x.net", "x.sheet", "-o", "out.sheet")[0], read(folder, "out.sheet")), (0, result))
    tally.same(f"{what}: of the result", (lineup(folder, command, "x.net", "out.sheet", "-o", "twice.sheet", "--force")[0], read(folder, "twice.sheet")), (0, result))
    data = json.loads(lineup(folder, command, "x.net", "x.sheet", "--diff", "--json")[1])
    tally.same(f"{what}: JSON", (data["sheet"], applied(text, data["diff"])), (should, should))
    tally.same(f"{what}: an empty diff", data["diff"] == "", same)
    shown = lineup(folder, command, "x.net", "x.sheet")[1]
    plain = should.lstrip("\ufeff").replace("\r", "").expandtabs()
    tally.same(f"{what}: on standard output", re.sub(r"\A(# .*\n)*?# core: .*\n", "", shown), plain if plain.endswith("\n") else plain + "\n")


def own_remarks(tally, folder):
    """What lineup has written in front of a sheet does not pile up."""
    save(folder, "x.sheet", TEXTS["counts are filled in as most are"][1])
    first = lineup(folder, "mend", "x.net", "x.sheet")[1]
    save(folder, "first.sheet", first)
    second = lineup(folder, "mend", "x.net", "first.sheet")[1]
    head = "# first.sheet: the counts are right, and nothing changed\n# core: answer 0 none 0 length 12 list 1\n"
    tally.same("remarks of lineup's are replaced", second, head + first[first.index("n:\n") :])
    tally.check("they were there", first.startswith("# x.sheet: no count was given"), first)


def patched_wrongly(tally, folder):
    """A text that does not say what the core wrote is not handed out."""
    before = sheet_patch.Patch.hold, sheet_patch.Patch.drop, sheet_patch.Patch.lead
    save(folder, "x.sheet", TEXTS["counts change in place"][1])
    save(folder, "y.sheet", TEXTS["arrows lead to the one that stays"][1])
    try:
        sheet_patch.Patch.hold = sheet_patch.Patch.drop = sheet_patch.Patch.lead = lambda *arguments: None
        for command, name in (("mend", "x.sheet"), ("trim", "z.sheet"), ("short", "y.sheet")):
            save(folder, "z.sheet", TEXTS["a node goes with its remarks"][1])
            found = lineup(folder, command, "x.net", name, "-o", "wrong.sheet")
            tally.check(f"{command}, patched wrongly", found[0] == 2 and "DISAGREEMENT: the text as it was patched" in found[2] and not os.path.exists(os.path.join(folder, "wrong.sheet")), found)
    finally:
        sheet_patch.Patch.hold, sheet_patch.Patch.drop, sheet_patch.Patch.lead = before


def samples(tally, folder):
    """The diff for people: what is told, then a patch; with -o both."""
    net, export = (os.path.join(JETTY, name) for name in ("jetty.net", "export.sheet"))
    status, output, errors = lineup(folder, "mend", net, export, "--diff", "-o", "mended.sheet")
    tally.same("mend --diff -o: status", (status, errors), (0, ""))
    told, patch = output.split("--- ", 1)
    patch, written = patch.rsplit("written: ", 1)
    tally.holds("mend --diff -o", told, "5 counts changed", "core: answer 0 none 0 length 60 list 11")
    tally.holds("mend --diff -o, the patch", patch, f"{export}\n+++ mended.sheet\n@@ -", "\n-half:      header line tank1     # the parcel has left the line\n+half:      header tank1          # the parcel has left the line\n")
    with open(export, encoding="utf-8") as file:
        tally.same("mend --diff -o, the file", (written, without_mark(read(folder, "mended.sheet"))), ("mended.sheet\n", applied(file.read(), "--- " + patch)))
    words_ = lineup(folder, "trim", os.path.join(HOME, "samples", "edited"), "--diff")
    tally.holds("of words, the diff is one of names", words_[1], "\n-empty:     header\n-  berth   -> berthed\n")
    tally.same("nothing to tell", lineup(folder, "trim", JETTY, "--diff")[1].count("\n"), 2)


def applied(text, diff):
    """A text after a unified diff, line by line; the lines that are to stay and to go have to be there."""
    old, new, at = re.findall(r"[^\n]*\n|[^\n]+\Z", text), [], 0
    for start, many, lines in re.findall(r"(?ms)^@@ -(\d+)(?:,(\d+))? \+\d+(?:,\d+)? @@\n(.*?)(?=^@@ -|\Z)", diff):
        start = int(start) - (many != "0")
        new, at = new + old[at:start], start
        for sign, line, unended in re.findall(r"([-+ ])([^\n]*\n)(\\ No newline at end of file\n)?", lines):
            line = line[:-1] if unended else line
            if sign != "+":
                assert old[at] == line, (old[at], line)
                at += 1
            if sign != "-":
                new.append(line)
    return "".join(new + old[at:])


def decorated(tally, folder):
    """Generated sheets as texts with remarks, blanks and tabs anywhere: only lines change of which something changes."""
    chance, met = random.Random(9), Counter()
    random.seed(9)
    cases = [("mend", *case) for case in generated.stale(31, 1000)] + [("trim", *case) for case in generated.unreached(37, 1000)]
    cases += [("short", net, sheet) for net, *both in generated.siblings(41, 90) for sheet in both]
    calls = {"mend": core.mend, "trim": core.trim, "short": core.short}
    answers = core.ask(*(calls[command](net.words, sheet.words) for command, net, sheet in cases))
    for i, ((command, net, sheet), answer) in enumerate(zip(cases, answers)):
        if answer.number or len(sheet.words) > 900 or 0 in net.model.start.values():
            continue
        if i % 2:
            round_trip.rename(net.model, sheet.model)
        save(folder, "g.net", netfile.write(net.model))
        text = scattered(chance, sheetfile.write(net.model, sheet.model))
        save(folder, "g.sheet", text)
        status, output, errors = lineup(folder, command, "g.net", "g.sheet", "--diff", "--json")
        tally.same(f"case {i}: {command}", (status, errors), (0, ""))
        data = json.loads(output)
        tally.same(f"case {i}: the diff makes it", applied(text, data["diff"]), data["sheet"])
        save(folder, "after.sheet", data["sheet"])
        over = inputs.net(os.path.join(folder, "g.net"))
        after = inputs.sheet(os.path.join(folder, "after.sheet"), over)
        said = after.words if command != "short" else core.ask(core.short(over.words, after.words))[0].written[0]
        tally.same(f"case {i}: says what the core wrote", said, answer.written[0])
        allowed = may_change(net.model, sheet.model, after.model)
        changed = [line[1:] for line in difflib.ndiff(text.split("\n"), data["sheet"].split("\n")) if line.startswith("- ")]
        wrong = [line for line in changed if line.strip() and not allowed(line.strip())]
        tally.same(f"case {i}: nothing else changes", wrong, [])
        met[command, bool(changed)] += 1
    tally.same("commands met, with and without changes", sorted(key for key, many in met.items() if many >= 5), sorted((command, sort) for command in calls for sort in (False, True)))


def scattered(chance, text):
    """Remarks, empty lines and other blanks put into a text."""
    lines = []
    for line in text.split("\n")[:-1]:
        if chance.random() < 0.15:
            lines.append(chance.choice(["", "  ", "# a remark: of -> sorts", "\t# set in", "#"]))
        if chance.random() < 0.3:
            line = re.sub(r" +", lambda found: chance.choice([" ", "\t", "   "]), line) if "{" not in line else line
        if chance.random() < 0.3:
            line += chance.choice(["  # why", "# why", "\t# why: a -> b", "   ", "\r"])
        lines.append(line)
    return "\n".join(lines) + chance.choice(["\n", "", "\n\n# end\n"])


def may_change(net, before, after):
    """Tells of a line whether it may go: one of a node whose counts change or that goes, an arrow of such a node or to one that goes, and any remark among these."""
    gone = set(before.nodes) - set(after.nodes)
    held = {name: counts for name, counts in zip(after.nodes, after.counts)}
    other = {name for name, counts in zip(before.nodes, before.counts) if name in held and held[name] != counts}

    def allowed(line):
        if line.startswith("#"):
            return bool(gone)
        names = [name for name in sorted(gone | other, key=len, reverse=True) if written(name) in line]
        return bool(names) or bool(gone) and "->" in line

    written = lambda name: sheetfile.written(name)
    return allowed
