"""Pictures as they are asked for: title, legend, direction, width, choice sets, shortened names with whole counts; a run, a log and another sheet marked."""
import os
import re
import tempfile
import xml.etree.ElementTree as tree

import generated
from called import lineup
from drawings import apart
from lineup import highlight, netfile, picture, svg
from lineup.commands.compare import parting
from lineup.home import HOME
from lineup.shapes import short

JETTY = os.path.join(HOME, "samples", "jetty")
NET, MAY, JUNE, LOG = (os.path.join(JETTY, name) for name in ("jetty.net", "may.sheet", "june.sheet", "may.log"))
SPACE = "{http://www.w3.org/2000/svg}"
LONG = "a tank whose name is far too long to be shown in a picture"
FILES = {
    "long.net": f"net long\npl {{{LONG}}} (1000000000) <= 1000000000\npl b\ntr {{{LONG}}} -> b*1000000000\ntr u b*1000000000 ->\n",
    "long.sheet": f"sheet {{{LONG}}}\n{{{LONG}}}: {{{LONG}}}*1000000000\n  {{{LONG}}} -> m\nm: {{{LONG}}}*1000000000 b*1000000000\n  u -> {{{LONG}}}\n",
    "torn.sheet": "n:\n  berth -> n\n",
    "bad.log": "log bad\nberth -> berthed\nline-up -> half\n",
    "sets.net": "tr s -> a\ntr v -> a\ntr t a ->\ntr u a -> b\ntr w b ->\ntr x b ->\ntr y c ->\ntr z c ->\ntr z2 c*2 ->\n",
}


def run(tally):
    with tempfile.TemporaryDirectory() as folder:
        for name, text in FILES.items():
            with open(os.path.join(folder, name), "w", encoding="utf-8") as file:
                file.write(text)
        titles(tally, folder)
        legends(tally, folder)
        directions(tally, folder)
        widths(tally, folder)
        choices(tally, folder)
        long_names(tally, folder)
        runs(tally, folder)
        logs(tally, folder)
        differences(tally, folder)
        wrong(tally, folder)
    on_generated(tally)


def drawn(tally, folder, *arguments, status=0):
    """The picture that draw writes, as an element."""
    found = lineup(folder, "draw", *arguments, "-o", "x.svg", "--force")
    tally.same(f"draw {arguments}: status", (found[0], found[2]), (status, ""))
    with open(os.path.join(folder, "x.svg"), encoding="utf-8") as file:
        return tree.fromstring(file.read())


def shown(element):
    """The text of an element as it is seen: without tooltips."""
    return (element.text or "") + "".join((shown(child) if not child.tag.endswith("title") else "") + (child.tail or "") for child in element)


def own(element):
    """What it shows itself, and not by a part of it."""
    return (element.text or "") + "".join(child.tail or "" for child in element if child.tag.endswith("title"))


def texts(root):
    return [shown(text) for text in root.iter(f"{SPACE}text")]


def boxes(root):
    """By their names: the classes, and the middle."""
    found = {}
    for group in root.iter(f"{SPACE}g"):
        if group.get("data-box"):
            name = next(shown(text) for text in group.iter(f"{SPACE}text") if text.get("class") != "tokens")
            shape = next(child for child in group if child.tag in (f"{SPACE}rect", f"{SPACE}circle"))
            at = (float(shape.get("cx")), float(shape.get("cy"))) if shape.get("cx") else tuple(float(shape.get(a)) + float(shape.get(b)) / 2 for a, b in (("x", "width"), ("y", "height")))
            found[name] = (set(group.get("class").split()), at)
    return found


def arrows(root, mark):
    """The labels of arrows that have a mark."""
    return sorted(shown(text) for group in root.iter(f"{SPACE}g") if group.get("class", "").split()[0:1] == ["arrow"] for text in group.iter(f"{SPACE}text") if text.get("class") == mark)


# ---- the picture itself


def titles(tally, folder):
    tally.check("a title by the names", "may of jetty" in texts(drawn(tally, folder, NET, MAY)))
    tally.check("of a net", "jetty" in texts(drawn(tally, folder, NET))[-1:])
    given = texts(drawn(tally, folder, NET, MAY, "--title", "For <Monday> & after"))
    tally.check("a given one", "For <Monday> & after" in given and "may of jetty" not in given, given)
    none = texts(drawn(tally, folder, NET, MAY, "--title", ""))
    tally.check("none", not any("jetty" in text and "may" in text for text in none), none)
    tally.check("words have no names of their own", "jetty" not in " ".join(texts(drawn(tally, folder, JETTY))[-2:-1]))
    many = " ".join(f"word{i}" for i in range(40))
    lines = [text for text in texts(drawn(tally, folder, NET, MAY, "--title", many, "--width", "700")) if text.startswith("word")]
    tally.same("a long one is broken, and whole", (" ".join(lines), len(lines) > 1), (many, True))
    tally.holds("in dot", lineup(folder, "draw", NET, MAY)[1], 'label="may of jetty\\l')


def legends(tally, folder):
    plain = texts(drawn(tally, folder, NET, MAY))
    told = texts(drawn(tally, folder, NET, MAY, "--legend"))
    tally.same("of a sheet", sorted(set(told) - set(plain)), ["begins here", "node, with what the places hold", "waits for a source"])
    net = texts(drawn(tally, folder, NET, "--legend"))
    tally.holds("of a net", "|".join(net), "place, with what it starts with", "transition", "source, which takes nothing", "how many it takes or puts, if not 1", "choice A, the plant's: passes, fails")
    tally.check("nothing that is not there", "waits for a source" not in net and not any("refused" in text for text in told))
    tally.check("what is refused", "what is refused" in texts(drawn(tally, folder, os.path.join(HOME, "samples", "15-wrong-landing"), "--legend", status=1)))


def directions(tally, folder):
    right, down = drawn(tally, folder, NET, MAY, "--right"), drawn(tally, folder, NET, MAY, "--down")
    with open(os.path.join(folder, "x.svg"), encoding="utf-8") as file:
        apart(tally, "down", file.read())
    tally.same("to the right without being told", tree.tostring(right), tree.tostring(drawn(tally, folder, NET, MAY)))
    way = ["idle", "berthed", "sampled", "half", "berthed2", "sampled2", "full"]
    for root, axis, what in ((right, 0, "right"), (down, 1, "down")):
        spots = [boxes(root)[name][1][axis] for name in way]
        tally.check(f"{what}: each after the one before", all(a < b for a, b in zip(spots, spots[1:])), spots)
    tally.check("down is narrow and high", size_of(down)[0] < size_of(down)[1] and size_of(right)[0] > size_of(right)[1])
    tally.holds("in dot", lineup(folder, "draw", NET, MAY, "--down")[1], "rankdir=TB;")


def size_of(root):
    return int(root.get("width")), int(root.get("height"))


def widths(tally, folder):
    for width in (480, 700, 1000):
        for arguments in ([NET, MAY], ["--net", NET, MAY], [os.path.join(HOME, "samples", "two-jetties")], [NET, MAY, "--run", "berth", "line-up", "fails"]):
            root = drawn(tally, folder, "--width", str(width), "--legend", "--title", "A title that is as long as titles sometimes are on a wall", *arguments)
            tally.check(f"{arguments} at {width}", size_of(root)[0] <= width, size_of(root))
            with open(os.path.join(folder, "x.svg"), encoding="utf-8") as file:
                apart(tally, f"{arguments} at {width}", file.read())
    tally.same("nothing is lost", sorted(boxes(drawn(tally, folder, NET, MAY, "--width", "500"))), sorted(boxes(drawn(tally, folder, NET, MAY))))
    for width in ("199", "x", "1000000"):
        tally.same(f"--width {width}", lineup(folder, "draw", NET, "--width", width)[0], 2)


def choices(tally, folder):
    """A letter for each set of several that the plant chooses between."""
    found = picture.choice_sets(netfile.read("sets.net", FILES["sets.net"]))
    tally.same("choice sets", found, {0: "A", 1: "A", 2: "B", 3: "B", 4: "C", 5: "C"})
    root = drawn(tally, folder, NET)
    tally.same("in the net", sorted(name for name, (classes, _) in boxes(root).items() if "choice" in classes), ["fails", "passes"])
    tally.same("by word", texts(root).count("choice A"), 2)
    tally.check("none where the schedule decides", not any("choice" in text for text in texts(drawn(tally, folder, "--net", os.path.join(HOME, "samples", "arbitrated")))))
    tally.holds("in dot", lineup(folder, "draw", NET)[1], 'label="passes\\nchoice A"')


def long_names(tally, folder):
    """Names are shortened, with the whole in a tooltip; counts and capacities are whole."""
    for arguments in (["long.net", "long.sheet"], ["long.net", "long.sheet", "--down"], ["long.net"], ["long.net", "--down"]):
        root = drawn(tally, folder, *arguments, "--title", "")
        inside = [shown(text) for group in root.iter(f"{SPACE}g") for text in group.iter(f"{SPACE}text")]
        tally.check(f"{arguments}: no name is shown whole", not any(LONG in text for text in inside) and any("\u2026" in text for text in inside), inside)
        numbers = [text for text in inside if "100000" in text]
        tally.check(f"{arguments}: numbers are", len(numbers) >= 2 and all(re.search(r"\b1000000000$", text) for text in numbers), numbers)
        cut = [text for text in root.iter() if text.tag in (f"{SPACE}text", f"{SPACE}tspan") and "\u2026" in own(text)]
        whole = [title.text for text in cut for title in text.findall(f"{SPACE}title")]
        tally.check(f"{arguments}: the whole in a tooltip", len(whole) == len(cut) > 0 and all(LONG in title for title in whole), (len(cut), whole))
    part = picture.Part("x" * 50, " x 1000000000")
    tally.same("a part", short(part), "x" * 16 + "\u2026 x 1000000000")
    tally.same("a part with much that belongs to it", short(picture.Part("long name", " " + "9" * 40)), "lon\u2026 " + "9" * 40)


# ---- what is marked


def runs(tally, folder):
    root = drawn(tally, folder, NET, MAY, "--run", "berth", "line-up", "fails", "rework", "passes", "--legend")
    tally.same("arrows, with their turns", arrows(root, "run"), ["berth [1]", "fails [3]", "line-up [2]", "passes [5]", "rework [4]"])
    marked = {name: classes & {"run", "end", "fault"} for name, (classes, _) in boxes(root).items()}
    tally.same("nodes", {name for name, found in marked.items() if found}, {"idle", "berthed", "sampled", "off", "half"})
    tally.same("its end", [name for name, found in marked.items() if "end" in found], ["half"])
    tally.holds("told", "|".join(texts(root)), "the run: 5 firings", "fired by the run, with its turns", "where the run ends")
    again = drawn(tally, folder, NET, MAY, "--run", *"berth line-up fails rework fails rework fails rework fails rework".split())
    tally.same("many turns", [text for text in arrows(again, "run") if "[" in text and "times" in text], ["fails [4 times]", "rework [4 times]"])
    net = drawn(tally, folder, "--net", NET, MAY, "--run", "berth", "line-up", "fails", "rework", "passes")
    tally.same("in the net", {name for name, (classes, _) in boxes(net).items() if "run" in classes}, {"berth", "line-up", "fails", "rework", "passes"})
    tally.same("how often", sum("fires 1 time" in text for text in texts(net)), 5)
    refused = drawn(tally, folder, NET, MAY, "--run", "berth", "load", "berth", status=1)
    tally.same("as far as it is allowed", arrows(refused, "run"), ["berth [1]"])
    tally.same("where it is not", [name for name, (classes, _) in boxes(refused).items() if "fault" in classes], ["berthed"])
    tally.holds("and why", "|".join(texts(refused)), "refused, 20 not offered|firing 2 of 3, load: node berthed offers line-up")
    tally.holds("told on the terminal", lineup(folder, "draw", NET, MAY, "--run", "load", "-o", "x.svg")[1], "refused, 20 not offered: the picture tells why", "core: answer 20 record 0")
    tally.holds("by the core", lineup(folder, "draw", NET, MAY, "--run", "berth", "-o", "x.svg")[1], "core: answer 0 none 0 nodes 9 arcs 11 awaits 2", "core: answer 0 none 0 fired 1 node 1 entry 1")
    tally.holds("in dot", lineup(folder, "draw", NET, MAY, "--run", "berth")[1], 'label="berth [1]" color="#0b62b8"')


def logs(tally, folder):
    root = drawn(tally, folder, NET, MAY, "--log", LOG, "--legend")
    tally.same("arrows of a log", arrows(root, "run"), sorted(["berth [1]", "line-up [2]", "fails [3]", "rework [4]", "passes [5]", "berth [6]", "line-up [7]", "passes [8]", "load [9]"]))
    tally.same("where it ends", [name for name, (classes, _) in boxes(root).items() if "end" in classes], ["idle"])
    tally.holds("a log: told", "|".join(texts(root)), "the log may.log: 9 firings")
    bad = drawn(tally, folder, NET, MAY, "--log", "bad.log", status=1)
    tally.same("a log that leaves the sheet", arrows(bad, "run"), ["berth [1]"])
    tally.holds("is told", "|".join(texts(bad)), "refused, 24 logged node differs")


def differences(tally, folder):
    root = drawn(tally, folder, NET, MAY, "--diff", JUNE, "--legend", status=1)
    tally.same("only in May", arrows(root, "less"), ["\u2212 rework"])
    tally.same("only in June", arrows(root, "more"), ["+ berth", "+ fails", "+ passes", "+ rework"])
    tally.same("June's own nodes", {name for name, (classes, _) in boxes(root).items() if "more" in classes}, {"both", "again"})
    tally.holds("told", "|".join(texts(root)), "may and june of jetty", "only in may.sheet", "only in june.sheet", "may.sheet and june.sheet do not allow the same firings")
    back = drawn(tally, folder, NET, JUNE, "--diff", MAY, status=1)
    tally.same("the other way round", (arrows(back, "more"), {name for name, (classes, _) in boxes(back).items() if "less" in classes}), (["+ rework"], {"both", "again"}))
    same = drawn(tally, folder, NET, MAY, "--diff", JETTY)
    tally.same("none", (arrows(same, "less"), arrows(same, "more")), ([], []))
    found = lineup(folder, "draw", NET, MAY, "--diff", "torn.sheet", "-o", "none.svg")
    tally.same("a refused one", (found[0], os.path.exists(os.path.join(folder, "none.svg"))), (2, False))
    tally.holds("is told", found[1], "torn.sheet", "it cannot be compared")


def wrong(tally, folder):
    for arguments, message in (
        (["--run", "berth"], "a sheet is missing"), (["--diff", MAY], "a sheet is missing"), ([MAY, "--run", "bert"], "no transition 'bert' (did you mean 'berth'?)"),
        ([MAY, "--log", "no.log"], "no such file"), ([MAY, "--run", "berth", "--diff", JUNE], "not allowed with"), ([MAY, "--down", "--right"], "not allowed with"),
    ):
        found = lineup(folder, "draw", NET, *arguments)
        tally.same(f"{arguments}: status", found[0], 2)
        tally.holds(f"{arguments}", found[2], message)


def on_generated(tally):
    """Every arrow of two sheets is in their one picture, marked as theirs or as both's; nothing lies over another thing."""
    many = 0
    for i, (net, one, other) in enumerate(generated.siblings(21, 60)):
        if len(one.model.nodes) + len(other.model.nodes) > 40:
            continue
        both = highlight.of_both(net.model, one.model, other.model)
        marks = {label.mark for arrow in both.arrows for label in arrow.labels}
        tally.same(f"pair {i}: marked exactly where they part", bool(marks - {""}), parting(one.model, other.model) is not None)
        many += bool(marks - {""})
        for sheet, mark in ((one.model, "less"), (other.model, "more")):
            own = sum(map(len, sheet.arcs))
            drawn_ = sum(label.mark in ("", mark) for arrow in both.arrows for label in arrow.labels)
            tally.check(f"pair {i}: arrows of {mark}", drawn_ >= own if mark == "less" else drawn_ > 0, (drawn_, own))
        for text in (svg.write(both, explained=True), svg.write(both, down=True)):
            apart(tally, f"pair {i}", text)
    tally.check("some part, some do not", many > 2, many)
