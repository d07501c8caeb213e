"""Files as other tools and people write them: PNML of other types, with references and equal names; logs with arrows and times of their own; and guesses that are near."""
import os
import tempfile

from called import lineup
from lineup import nearness

# as PIPE writes a net
PIPE = """<?xml version="1.0" encoding="ISO-8859-1"?>
<pnml><net id="Net-One" type="P/T net"><token id="Default" enabled="true" red="0" green="0" blue="0"/>
<place id="P0"><graphics><position x="1" y="2"/></graphics><name><value>tank</value></name><initialMarking><value>Default,2</value></initialMarking><capacity><value>0</value></capacity></place>
<place id="P1"><name><value>line</value></name><initialMarking><value>Default,0</value></initialMarking><capacity><value>3</value></capacity></place>
<transition id="T0"><name><value>fill</value></name><orientation><value>0</value></orientation><rate><value>1.0</value></rate><timed><value>false</value></timed><infiniteServer><value>false</value></infiniteServer><priority><value>1</value></priority></transition>
<transition id="T1"><name><value>drain</value></name><timed><value>false</value></timed></transition>
<arc id="a" source="T0" target="P0"><inscription><value>Default,1</value></inscription><tagged><value>false</value></tagged><arcpath id="000" x="1" y="2"/><type value="normal"/></arc>
<arc id="b" source="P0" target="T1"><inscription><value>Default,2</value></inscription><type value="normal"/></arc>
<arc id="c" source="T1" target="P1"><type value="normal"/></arc>
</net></pnml>
"""
REFERENCES = """<pnml xmlns="http://www.pnml.org/version-2009/grammar/pnml"><net id="n" type="http://www.pnml.org/version-2009/grammar/ptnet">
<page id="one"><referencePlace id="r2" ref="r"/><place id="p"><name><text>tank</text></name></place><transition id="t"><name><text>fill</text></name></transition><arc id="a" source="t" target="r2"/></page>
<page id="two"><referencePlace id="r" ref="p"><graphics/></referencePlace><referenceTransition id="u" ref="t"/><place id="q"><name><text>line</text></name></place>
<transition id="w"><name><text>drain</text></name></transition><arc id="b" source="r" target="w"/><arc id="c" source="u" target="q"/></page></net></pnml>
"""
ALIKE = """<pnml><net id="n" type="ptnet"><place id="p1"><name><text>tank</text></name></place><place id="p2"><name><text>tank</text></name></place><place id="x"><name><text>tank (p1)</text></name></place>
<transition id="t1"><name><text>fill</text></name></transition><transition id="t2"><name><text>fill</text></name></transition><transition id="u"/>
<arc id="a" source="t1" target="p1"/><arc id="b" source="t2" target="p2"/><arc id="c" source="p1" target="u"/><arc id="d" source="p2" target="u"/></net></pnml>
"""
NET, SHEET = "pl a\ntr s -> a\ntr u a ->\n", "n:\n  s → m\nm: a\n  u→n\n"
LOG = "log x\n08:15 s -> m\n8:15:30 u → n\n2026-05-03 08:16:07,25 s→m\n  2026-05-03T23:59:59.999Z u -> n # a remark at 08:15\n[09:00] s -> m\n2026-05-03\t09:01 +02:00 u -> n\n{08:15 berth}\t-> m\n"

# a name that is not there, the names that are, and those that are near
NEAR = [
    ("tnak1", ["tank1", "tank2"], ["tank1"]), ("tank", ["tank1", "tank2"], ["tank1", "tank2"]), ("tank", ["tank1", "tank2", "tank3"], []), ("tank3", ["tank1", "tank2"], []), ("TANK1", ["tank1"], ["tank1"]),
    ("a", ["b", "c"], []), ("A", ["a"], ["a"]), ("ab", ["abc"], []), ("off", ["of", "on"], []), ("lab", ["lob"], ["lob"]), ("passes", ["fails", "berth"], []), ("berht", ["berth"], ["berth"]), ("brth", ["berth"], ["berth"]),
    ("line-up", ["lineup"], ["lineup"]), ("header", ["reader", "heater", "spare"], ["reader", "heater"]), ("sampling", ["sampled"], []), ("sampeld", ["sampled", "sampled2"], ["sampled"]), ("rework", ["work", "network"], ["work", "network"]), ("load", ["rework"], []),
    ("connection", ["conection", "correction"], ["conection"]), ("", ["a", "abc"], []), ("x" * 400, ["x" * 397, "y" * 400], ["x" * 397]),
]


def run(tally):
    with tempfile.TemporaryDirectory() as folder:
        nets(tally, folder)
        logs(tally, folder)
    for name, names, should in NEAR:
        tally.same(f"near {name[:20]!r} of {[other[:20] for other in names]}", nearness.near(name, names), should)


def save(folder, name, text):
    with open(os.path.join(folder, name), "w", encoding="utf-8") as file:
        file.write(text)


def nets(tally, folder):
    cases = {
        "pipe.pnml": (PIPE, "pl tank (2)\npl line <= 3\ntr fill          -> tank\ntr drain  tank*2 -> line\n", "lineup: pipe.pnml:2:7: the net's type is 'P/T net', and it is read as a place/transition net ('ptnet')\n"),
        "references.pnml": (REFERENCES, "pl tank\npl line\ntr fill        -> tank line\ntr drain  tank ->\n", ""),
        "alike.pnml": (ALIKE, "pl {tank (p1)'}\npl {tank (p2)}\npl {tank (p1)}\ntr {fill (t1)}                           -> {tank (p1)'}\ntr {fill (t2)}                           -> {tank (p2)}\ntr u            {tank (p1)'} {tank (p2)} ->\n",
                       "lineup: alike.pnml:1:85: 2 places are called 'tank', and are told apart by their ids: 'tank (p1)'', 'tank (p2)'\nlineup: alike.pnml:2:64: 2 transitions are called 'fill', and are told apart by their ids: 'fill (t1)', 'fill (t2)'\n"),
    }
    for name, (text, should, errors) in cases.items():
        save(folder, name, text)
        tally.same(name, lineup(folder, "names", name), (0, should, errors))
        strict = lineup(folder, "names", name, "--strict")
        tally.same(f"{name}, strictly", (strict[0], strict[2]), (2, errors.split("\n")[0] + "\n") if errors else (0, ""))
    save(folder, "colours.pnml", PIPE.replace("P/T net", "http://www.pnml.org/version-2009/grammar/highlevelnet"))
    tally.same("another type is no net of ours", lineup(folder, "names", "colours.pnml")[::2], (2, "lineup: colours.pnml:2:7: the net's type is 'http://www.pnml.org/version-2009/grammar/highlevelnet', and only place/transition nets ('ptnet') are read\n"))
    for is_, other in (("<value>false</value></timed>", "<value>true</value></timed>"), ('<type value="normal"/>', '<type value="inhibitor"/>'), ("<priority><value>1", "<priority><value>2"), ("<tagged><value>false", "<tagged><value>true")):
        save(folder, "other.pnml", PIPE.replace(is_, other, 1))
        found = lineup(folder, "names", "other.pnml")
        tally.check(f"{other} is refused", found[0] == 2 and "is not part of a place/transition net" in found[2], found)


def logs(tally, folder):
    save(folder, "x.net", NET.replace("tr u", "tr {08:15 berth} -> a\ntr u"))
    save(folder, "x.sheet", SHEET.replace("  s → m\n", "  s → m\n  {08:15 berth} → m\n"))
    save(folder, "x.log", LOG)
    found = lineup(folder, "replay", "x.net", "x.sheet", "x.log")
    tally.same("arrows and times", (found[0], found[2]), (0, ""))
    tally.holds("arrows and times: all firings", found[1], "x.log: 7 firings from node n to node m")
    save(folder, "x.log", LOG.replace("8:15:30 u → n", "8:15:30 u → m"))
    tally.holds("arrows and times: the column", lineup(folder, "replay", "x.net", "x.sheet", "x.log")[1], "x.log:3:9: refused, 24 logged node differs")
    tally.same("an arrow in a net", lineup(folder, "check", "x.net", "x.sheet")[0], 0)
