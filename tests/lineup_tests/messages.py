"""Every message of the readers is met once, with its line and column and, where a name is nearly right, the name that was meant."""
import ast
import os
import sys
import tempfile

from lineup import files, inputs, logfile, netfile, pnml, sheetfile, streams, timesfile, trouble, wordfile
from lineup.home import HOME
from lineup.trouble import Trouble

READERS = ["tokens", "netfile", "sheetfile", "logfile", "timesfile", "wordfile", "names", "xml", "pnml", "files", "inputs", "match"]

NET = "net jetty\npl header (1)\ntr berth -> jetty\ntr line-up jetty header -> line\npl jetty\npl line\n"

# text, line:column, parts of the message
NETS = [
    ("pl a\npl {b\n", "2:4", ["a '{' without its '}'"]),
    ("pl a}\n", "1:5", ["a '}' without its '{'"]),
    ("pl {}\n", "1:4", ["a name is empty"]),
    ("pl {a\x1b[31m}\n", "1:4", ["a name holds \\x1b, a character that cannot be seen"]),
    ("pl {a\u202eb}\n", "1:4", ["a name holds \\u202e"]),
    ("pl a\u3164\n", "1:4", ["a name holds \\u3164"]),
    ("pl a \x07\n", "1:6", ["'\\x07' has no meaning here"]),
    ("pl a %\n", "1:6", ["'%' has no meaning here"]),
    ("tr t a?1 -> b\n", "1:7", ["test and inhibitor arcs ('?')"]),
    ("tr t a?-1 -> b\n", "1:7", ["inhibitor arcs"]),
    ("tr t a!2 -> b\n", "1:7", ["stopwatch arcs ('!')"]),
    ("tr t [0,4] a -> b\n", "1:6", ["intervals", "no clocks"]),
    ("tr t ]0,4] a -> b\n", "1:6", ["intervals"]),
    ("net\n", "1:4", ["the net's name is expected, not the end of the line"]),
    ("net   # a remark\n", "1:4", ["the net's name is expected, not the end of the line"]),
    ("net a b\n", "1:7", ["'b' after the net's name"]),
    ("sheet jetty\n", "1:1", ["a line of a sheet", "swapped"]),
    ("idle: header\n", "1:1", ["a line of a sheet", "swapped"]),
    ("pr a > b\n", "1:6", ["'>' has no meaning here"]),
    ("pr a\n", "1:1", ["priorities ('pr') are not part of a place/transition net"]),
    ("lb a b\n", "1:1", ["labels ('lb')"]),
    ("place a\n", "1:1", ["'net', 'pl' or 'tr' is expected, not 'place'"]),
    ("(3)\n", "1:1", ["'net', 'pl' or 'tr' is expected, not '('"]),
    ("pl\n", "1:3", ["a place's name is expected, not the end of the line"]),
    ("pl a\npl a\n", "2:4", ["place 'a' has a line already"]),
    ("pl a ()\n", "1:7", ["the number that the place starts with is expected, not ')'"]),
    ("pl a (one)\n", "1:7", ["the number that the place starts with is expected, not 'one'"]),
    ("pl a (1\n", "1:8", ["')' is expected, not the end of the line"]),
    ("pl a (4294967296)\n", "1:7", ["'4294967296' is above 4,294,967,295"]),
    ("pl a <=\n", "1:8", ["the most that the place can hold is expected, not the end of the line"]),
    ("pl a (1) <= many\n", "1:13", ["the most that the place can hold is expected, not 'many'"]),
    ("pl a <= 2 (1)\n", "1:11", ["'(' after place 'a'"]),
    ("pl a (1) t -> u\n", "1:10", ["arcs stand on the lines of transitions"]),
    ("pl a : label\n", "1:6", ["labels (':')"]),
    ("pl a )\n", "1:6", ["')' after place 'a'"]),
    ("tr t : label a -> b\n", "1:6", ["labels (':')"]),
    ("tr t a [0,w[ -> b\n", "1:8", ["a place is expected, not '[0,w['"]),
    ("tr\n", "1:3", ["a transition's name is expected"]),
    ("tr t\ntr t\n", "2:4", ["transition 't' has a line already"]),
    ("tr t a b\n", "1:9", ["'->' between what is taken and what is put is expected, not the end of the line"]),
    ("tr t * -> b\n", "1:6", ["a place is expected, not '*'"]),
    ("tr t a* -> b\n", "1:9", ["a number after '*' is expected, not '->'"]),
    ("tr t a*2K -> b\n", "1:8", ["a number after '*' is expected, not '2K'"]),
    ("tr t a b a -> c\n", "1:10", ["place 'a' stands here twice: write a*NUMBER"]),
    ("tr t a -> b -> c\n", "1:13", ["'->' after what is put"]),
]

SHEETS = [
    ("-> b\n", "1:1", ["'NODE: places' or 'transition -> NODE' is expected, not '->'"]),
    ("idle header\n", "1:6", ["':' after a node or '->' after a transition is expected, not 'header'"]),
    ("sheet\n", "1:6", ["is expected, not the end of the line"]),
    ("pl header (1)\n", "1:1", ["a line of a net", "swapped"]),
    ("a: header\na: header\n", "2:1", ["node 'a' is there already"]),
    ("a: heder\n", "1:4", ["no place 'heder' (did you mean 'header'?)"]),
    ("a: HEADER\n", "1:4", ["no place 'HEADER' (did you mean 'header'?)"]),
    ("a: xyzzy\n", "1:4", ["no place 'xyzzy'"]),
    ("a: header -> b\n", "1:11", ["an arrow has a line of its own"]),
    ("a: header header\n", "1:11", ["place 'header' stands here twice"]),
    ("berth -> a\n", "1:1", ["an arrow before the first node"]),
    ("a:\n  bert -> a\n", "2:3", ["no transition 'bert' (did you mean 'berth'?)"]),
    ("a:\n  berth -> a\n  berth -> a\n", "3:3", ["node 'a' has an arrow for 'berth' already"]),
    ("a:\n  berth -> berthd\nberthed: header\n", "2:12", ["no node 'berthd' (did you mean 'berthed'?)"]),
    ("a:\n  berth ->\n", "2:11", ["the node that the arrow leads to is expected"]),
    ("a:\n  berth -> a b\n", "2:14", ["'b' after the arrow"]),
]

LOGS = [
    ("log may\n: a\n", "2:1", ["'transition -> NODE' is expected, not ':'"]),
    ("log\n", "1:1", ["no transition 'log'"]),
    ("bert -> a\n", "1:1", ["no transition 'bert' (did you mean 'berth'?)"]),
    ("berth a\n", "1:7", ["'->' after a transition is expected, not 'a'"]),
    ("berth ->\n", "1:9", ["the node that was reached is expected, not the end of the line"]),
    ("berth -> b\nberth -> berthd\n", "1:10", ["no node 'b'"]),
    ("berth -> berthd\n", "1:10", ["no node 'berthd' (did you mean 'berthed'?)"]),
    ("berth -> berthed now\n", "1:18", ["'now' after the firing"]),
    ("08:15 berth -> berthd\n", "1:16", ["no node 'berthd' (did you mean 'berthed'?)"]),
    ("berth -> berthed 08:15\n", "1:18", ["a time stands in front of its firing: 08:15 TRANSITION -> NODE"]),
    ("08.15 berth -> berthed\n", "1:1", ["no transition '08.15': a time in front of a firing is written 08:15"]),
    ("08:15:berth -> berthed\n", "1:1", ["no transition '08': a time in front of a firing"]),
    ("08:15 -> berthed\n", "1:7", ["'transition -> NODE' is expected, not '->'"]),
    ("berth => berthed\n", "1:7", ["an arrow is written '->' or '→'"]),
    ("berth --> berthed\n", "1:7", ["an arrow is written '->' or '→'"]),
    ("berth ⇒ berthed\n", "1:7", ["an arrow is written '->' or '→'"]),
]

HEAD = '<pnml xmlns="http://www.pnml.org/version-2009/grammar/pnml">\n'
OPEN = HEAD + '<net id="n" type="http://www.pnml.org/version-2009/grammar/ptnet"><page id="g">\n'
CLOSE = "</page></net></pnml>"
PLACE = '<place id="p"/>\n<transition id="t"/>\n'

PNMLS = [
    ("<pnml>\n<net></pnml>", "2:8", ["no XML: 'mismatched tag'"]),
    ('<!DOCTYPE pnml [<!ENTITY a "b">]>\n<pnml/>', "1:", ["a document type ('<!DOCTYPE') is not read"]),
    (HEAD + "</pnml>", "1:1", ["one net in a pnml element is expected, not 0"]),
    ("<html/>", "1:1", ["one net in a pnml element is expected, not 0"]),
    (HEAD + '<net id="n" type="http://www.pnml.org/version-2009/grammar/symmetricnet"/></pnml>', "2:1", ["symmetricnet", "only place/transition nets ('ptnet')"]),
    (OPEN + '<place id="p"><type><text>colour</text></type></place>' + CLOSE, "3:15", ["'type' ('colour') at a place is not part of a place/transition net"]),
    (OPEN + '<inhibitor id="r" ref="p"/>' + CLOSE, "3:1", ["'inhibitor' at a page is not part"]),
    (OPEN + PLACE + '<arc id="a" source="p" target="t"><type value="reset"/></arc>' + CLOSE, "5:35", ["'type' ('reset') at an arc"]),
    (OPEN + '<transition id="t"><timed><value>true</value></timed></transition>' + CLOSE, "3:20", ["'timed' ('true') at a transition"]),
    (OPEN + PLACE + '<referencePlace id="p" ref="t"/>' + CLOSE, "5:1", ["the id 'p' is there already"]),
    (OPEN + PLACE + '<referencePlace id="r" ref="q"/>\n<arc id="a" source="r" target="t"/>' + CLOSE, "5:1", ["the reference's end 'q' is no place and no transition"]),
    (OPEN + PLACE + '<referencePlace id="r" ref="t"/>\n<arc id="a" source="r" target="t"/>' + CLOSE, "5:1", ["the 'referencePlace' refers to 't', a transition"]),
    (OPEN + PLACE + '<referencePlace id="r" ref="s"/><referencePlace id="s" ref="r"/>\n<arc id="a" source="r" target="t"/>' + CLOSE, "5:33", ["the reference 'r' leads back to itself"]),
    (OPEN + '<transition id="t"><condition><text>x = 1</text></condition></transition>' + CLOSE, "3:20", ["'condition' ('x = 1') at a transition"]),
    (OPEN + PLACE + '<arc id="a" source="p" target="t"><type value="inhibitor"/></arc>' + CLOSE, "5:35", ["'type' ('inhibitor') at an arc"]),
    (OPEN + '<place id="p"><name><text>a</text></name><name><text>b</text></name></place>' + CLOSE, "3:42", ["a second 'name' at a place"]),
    (OPEN + '<place id="p"><capacity><other>2</other></capacity></place>' + CLOSE, "3:15", ["a capacity without a text"]),
    (OPEN + '<place id="p"><initialMarking><text>two</text></initialMarking></place>' + CLOSE, "3:15", ["'two' is no number from 0 to 4,294,967,295"]),
    (OPEN + '<place id="p"><name><text>a&#x202e;b</text></name></place>' + CLOSE, "3:1", ["a name holds \\u202e"]),
    (OPEN + "<place/>" + CLOSE, "3:1", ["a name is empty"]),
    (OPEN + '<place id="q"/>\n<place id="r&#x202e;"><name><text>q</text></name></place>' + CLOSE, "4:1", ["a name holds \\u202e"]),
    (OPEN + '<place id="p"/><transition id="p"/>' + CLOSE, "3:16", ["the id 'p' is there already"]),
    (OPEN + '<place id="p"><initialMarking><value>Default,1,Red,2</value></initialMarking></place>' + CLOSE, "3:15", ["'1,Red,2' is no number"]),
    (OPEN + PLACE + '<arc id="a" source="p" target="nowhere"/>' + CLOSE, "5:1", ["the arc's end 'nowhere' is no place and no transition"]),
    (OPEN + "<page>" * 3000 + "<place/>" + "</page>" * 3000 + CLOSE, "3:18001", ["a name is empty"]),
    (OPEN + PLACE + '<arc id="a" source="p" target="p"/>' + CLOSE, "5:1", ["an arc from a place to a place"]),
    (OPEN + PLACE + '<arc id="a" source="p" target="t"/><arc id="b" source="p" target="t"/>' + CLOSE, "5:36", ["a second arc from 'p' to 't'"]),
]

TIMES = [
    ("s 1 2\n", "1:1", ["no durations for u"]),
    ("", "1:1", ["no durations for s, u"]),
    ("s 1 2\ns 1 2\n", "2:1", ["transition s has durations already, in line 1"]),
    ("s 1\n", "1:4", ["the latest duration, in seconds, is expected, not the end of the line"]),
    ("s 1 2 3\n", "1:7", ["'3' after the durations"]),
    ("s one 2\n", "1:3", ["the earliest duration, in seconds, is expected, not 'one'"]),
    ("-> 1 2\n", "1:1", ["'transition EARLIEST LATEST' is expected, not '->'"]),
    ("v 1 2\n", "1:1", ["no transition 'v'"]),
]

WORDS = [
    ("1 1\n0x10\n", "2:1", ["'0x10' is no decimal word"]),
    ("1 -1", "1:3", ["'-1' is no decimal word"]),
    ("# 1 a\n 4294967296", "2:2", ["'4294967296' is above 4,294,967,295"]),
]

NAMES = [
    ("place 0 a\nspot 1 b\n", "2:1", ["'place NUMBER NAME'"]),
    ("place x a\n", "1:1", ["'place NUMBER NAME'"]),
    ("place 0 a\nplace 0 b\n", "2:1", ["place 0 has a name already"]),
    ("place 0 a\nplace 1 a\n", "2:1", ["place 'a' is there already"]),
    ("place 1 a\n", "1:1", ["place 1 has a name, and there are 1, 0 to 0"]),
    ("place 0 \x1b[2J\n", "1:1", ["a name holds \\x1b"]),
]


def run(tally):
    met = watched()
    over = netfile.read("x.net", NET)
    tables = [("net", NETS, lambda text: netfile.read("x", text)), ("sheet", SHEETS, lambda text: sheetfile.read("x", text, over))]
    at = sheetfile.read("x.sheet", "a:\nberthed: jetty\n", over)
    tables += [("log", LOGS, lambda text: logfile.read("x", text, over, at))]
    tables += [("times", TIMES, lambda text: timesfile.read("x", text, netfile.read("x.net", "tr s -> a\ntr u a ->\n")))]
    tables += [("PNML", PNMLS, lambda text: pnml.read("x", text.encode())), ("words", WORDS, lambda text: wordfile.decimal("x", text))]
    for kind, table, read in tables:
        for text, where, parts in table:
            expect(tally, f"{kind} {text!r}", lambda read=read, text=text: read(text), where, parts)
    with tempfile.TemporaryDirectory() as folder:
        in_files(tally, folder)
    all_met(tally, met)


def expect(tally, what, action, where, parts):
    try:
        action()
    except Trouble as found:
        told = f"{found.line}:{found.column}" if found.line else ""
        tally.check(f"{what}: place", told.startswith(where) if where.endswith(":") else told == where, f"is {told}, should be {where}: {found}")
        tally.holds(what, str(found), *parts)
    else:
        tally.check(what, False, "no message")


def in_files(tally, folder):
    def path(name, data=None):
        full = os.path.join(folder, name)
        if data is not None:
            os.makedirs(os.path.dirname(full), exist_ok=True)
            with open(full, "wb") as file:
                file.write(data if isinstance(data, bytes) else data.encode())
        return full

    path("jetty.net", NET)
    expect(tally, "no such file", lambda: inputs.net(path("jety.net")), "", ["no such file (did you mean 'jetty.net'?)"])
    expect(tally, "no such folder", lambda: inputs.net(path("no/such")), "", ["no such file"])
    expect(tally, "an empty name", lambda: inputs.net(""), "", ["the name of the net is empty"])
    expect(tally, "not text", lambda: inputs.net(path("bad.net", b"net a\npl \xff\n")), "2:4", ["the byte 255 is no UTF-8 text"])
    expect(tally, "too long", lambda: inputs.net(path("long.net", b"#" * (files.LARGEST + 1))), "", ["longer than 8,000,000 bytes"])
    expect(tally, "a file below a file", lambda: inputs.net(path("jetty.net/x")), "", ["not a directory"])
    os.makedirs(path("bare"))
    expect(tally, "no words", lambda: inputs.net(path("bare")), "", ["the folder has no net.bin and no net.txt"])
    path("bare/jetty.net", NET)
    expect(tally, "a text in a folder", lambda: inputs.net(path("bare")), "", ["no net.txt; 'jetty.net' is a text, and is named itself"])
    expect(tally, "PNML for a sheet", lambda: inputs.sheet(path("a.pnml", "<pnml/>"), inputs.net(path("jetty.net"))), "", ["PNML is for nets", "swapped"])
    both = inputs.net(path("jetty.net")), inputs.sheet(path("a.sheet", "a: header\n"), inputs.net(path("jetty.net")))
    expect(tally, "PNML for a log", lambda: inputs.log(path("a.pnml"), *both), "", ["PNML is for nets, and a log is expected"])
    expect(tally, "bytes of a log", lambda: inputs.log(path("a.bin", b"\0\0\0\0\1"), *both), "", ["5 bytes are no whole words of four bytes: 1 over"])
    expect(tally, "no log", lambda: inputs.log(path("bare"), *both), "", ["the folder has no log.bin and no log.txt"])
    expect(tally, "PNML for durations", lambda: inputs.durations(path("a.pnml"), both[0]), "", ["PNML is for nets, and durations are expected"])
    expect(tally, "bytes of durations", lambda: inputs.durations(path("a.bin"), both[0]), "", ["5 bytes are no whole words of four bytes: 1 over"])
    expect(tally, "no durations", lambda: inputs.durations(path("bare"), both[0]), "", ["the folder has no times.bin and no times.txt"])
    expect(tally, "a place to write", lambda: files.write(path("no/such/file"), "x"), "", ["cannot be written: no such file or directory"])
    expect(tally, "a file to remove", lambda: files.remove(path("no/such/file")), "", ["cannot be removed: no such file or directory"])
    for i, (text, where, parts) in enumerate(NAMES):
        path(f"names{i}/net.txt", "1 1 0")
        path(f"names{i}/names.txt", text)
        expect(tally, f"names {text!r}", lambda i=i: inputs.net(path(f"names{i}")), where, parts)
    mappings(tally, path)
    streams.begin(True)
    path("both/net.txt", "1 1 0")
    path("both/net.bin", b"")
    expect(tally, "both forms", lambda: inputs.net(path("both")), "", ["has both net.bin and net.txt: net.bin is used"])
    expect(tally, "a place without a line", lambda: inputs.net(path("slip.net", "pl tank1\ntr s -> tnak1\n")), "2:9", ["place 'tnak1' has no 'pl' line", "(did you mean 'tank1'?)"])
    for type_ in ("P/T net", "PTNet", "pnmlcoremodel", "http://www.informatik.hu-berlin.de/top/pntd/ptNetb", ""):
        named = OPEN.replace("http://www.pnml.org/version-2009/grammar/ptnet", type_)
        expect(tally, f"the type {type_!r}", lambda named=named: inputs.net(path("t.pnml", named + PLACE + CLOSE)), "2:1", [f"the net's type is '{type_}', and it is read as a place/transition net ('ptnet')"])
    alike = OPEN + '<place id="p"><name><text>q</text></name></place><place id="q"/>\n' + CLOSE
    expect(tally, "equal names", lambda: inputs.net(path("t.pnml", alike)), "3:50", ["2 places are called 'q', and are told apart by their ids: 'q (p)', 'q (q)'"])
    streams.begin(False)


def mappings(tally, path):
    """Folders with a net of their own, laid over another."""
    net = inputs.net(path("own.net", "pl a (1)\npl b\ntr s -> b\ntr u b a -> a\n"))
    words = {"net.txt": "2 2 5 2 3 5 6 8 1 1 1 1 1", "sheet.txt": "2 5 0 3 4 6 7 1 0 1 1 1"}
    named = "place 0 a\nplace 1 b\ntransition 0 s\ntransition 1 u\n"
    cases = {
        "other places": (named.replace("b", "c"), words["net.txt"], ["place 'c' is only here", "place 'b' is only there"]),
        "another start": (named, "2 2 5 2 3 5 6 8 1 1 1 1 2", ["place 'a' starts with 2 here and 1 there"]),
        "a capacity": (named, "2 2 6 2 3 5 6 8 10 1 1 1 1 1 1", ["place 'a' can hold 1 here and any number there"]),
        "another weight": (named, "2 2 5 2 3 5 6 8 1 2 1 1 1", ["transition 'u' takes a b*2 here and a b there"]),
        "no readable words": (named, "2 2", ["its words cannot be laid over"]),
    }
    for name, (names, own, parts) in cases.items():
        for file, text in (("net.txt", own), ("sheet.txt", words["sheet.txt"]), ("names.txt", names)):
            path(f"{name}/{file}", text)
        expect(tally, name, lambda name=name: inputs.sheet(path(name), net), "", parts)


# ---- every place in the readers that raises was met


def watched():
    """Records the lines of the readers on the way to each Trouble."""
    met, original = set(), trouble.Trouble.__init__

    def init(self, *args, **options):
        frame = sys._getframe(1)
        while frame:
            met.add((os.path.basename(frame.f_code.co_filename), frame.f_lineno))
            frame = frame.f_back
        original(self, *args, **options)

    trouble.Trouble.__init__ = init
    return met


def all_met(tally, met):
    for name in READERS:
        with open(os.path.join(HOME, "python", "lineup", f"{name}.py"), encoding="utf-8") as file:
            tree = ast.parse(file.read())
        for node in ast.walk(tree):
            if isinstance(node, ast.Call) and called(node) in ("Trouble", "fail"):
                lines = range(node.lineno, node.end_lineno + 1)
                tally.check(f"{name}.py:{node.lineno} was met", any((f"{name}.py", line) in met for line in lines), ast.unparse(node)[:150])


def called(node):
    return node.func.attr if isinstance(node.func, ast.Attribute) else getattr(node.func, "id", "")
