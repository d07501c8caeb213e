"""What a terminal would obey never comes through: not from names, not from file names, not from arguments, in no form of output."""
import os
import random
import re
import tempfile

from called import lineup, program
from lineup import netfile, pnml
from lineup.home import HOME

RED, CLEAR, TITLE, TURN = "\x1b[31m", "\x1b[2J", "\x1b]0;owned\x07", "\u202e"
NASTY = [RED, CLEAR, TITLE, TURN, "\x9b31m", "\r", "\x08", "\u2066", "\u200b", "\x7f", "\x00"]
OBEYED = re.compile("[\x00-\x09\x0b-\x1f\x7f-\x9f\u200b-\u200f\u2028-\u202e\u2060-\u2069\ufeff]")


def run(tally):
    with tempfile.TemporaryDirectory() as folder:
        save(folder, "good.net", "pl a\ntr s -> a\ntr u a ->\n")
        save(folder, "good.sheet", "n:\n  s -> m\nm: a\n  u -> n\n")
        for i, nasty in enumerate(NASTY):
            names(tally, folder, i, nasty)
        arguments(tally, folder)
        by_program(tally, folder)
        file_names(tally, folder)
        plain_terminals(tally, folder)
    any_bytes(tally)


def save(folder, name, text):
    path = os.path.join(folder, name)
    os.makedirs(os.path.dirname(path), exist_ok=True)
    with open(path, "wb") as file:
        file.write(text if isinstance(text, bytes) else text.encode("utf-8", "surrogateescape"))


def clean(tally, what, folder, *arguments, status=2):
    found = lineup(folder, *arguments)
    tally.same(f"{what}: status", found[0], status)
    for name, text in (("output", found[1]), ("errors", found[2])):
        seen = OBEYED.search(text)
        tally.check(f"{what}: {name}", not seen, f"{seen and ascii(seen.group())} in {ascii(text[:300])}")
    tally.check(f"{what}: no defect", "defect" not in found[2], found[2])
    return found


def names(tally, folder, i, nasty):
    """In every form that has names."""
    save(folder, f"{i}.net", f"pl {{a{nasty}b}}\ntr s -> a\n")
    clean(tally, f"{nasty!r} in a net", folder, "check", f"{i}.net", "good.sheet")
    save(folder, f"{i}.sheet", f"n:\n  s -> {{m{nasty}}}\n")
    clean(tally, f"{nasty!r} in a sheet", folder, "check", "good.net", f"{i}.sheet")
    save(folder, f"bare{i}.sheet", f"n:\n  s -> m{nasty}\n")
    clean(tally, f"{nasty!r} in a plain name", folder, "check", "--json", "good.net", f"bare{i}.sheet")
    for name, text in (("net.txt", "1 1 0"), ("sheet.txt", "1 1 0 0"), ("names.txt", f"place 0 a{nasty}b\n")):
        save(folder, f"words{i}/{name}", text)
    clean(tally, f"{nasty!r} in names.txt", folder, "draw", f"words{i}")
    save(folder, f"words{i}/net.txt", f"1 1 {nasty}0")
    os.unlink(os.path.join(folder, f"words{i}", "names.txt"))
    found = lineup(folder, "check", f"words{i}")
    tally.check(f"{nasty!r} in words", not OBEYED.search(found[1] + found[2]), ascii(found))
    xml = nasty if nasty not in ("\x00",) else "x"
    save(folder, f"{i}.pnml", f'<pnml><net type="ptnet"><place id="a"><name><text>a{xml}b</text></name></place></net></pnml>')
    found = lineup(folder, "names", f"{i}.pnml")
    tally.check(f"{nasty!r} in PNML", found[0] in (0, 2) and not OBEYED.search(found[1] + found[2]), ascii(found))


def arguments(tally, folder):
    for nasty in (RED, TITLE, TURN, "\udcff\udcfe", "a\nb"):
        clean(tally, f"{nasty!r} as a command", folder, nasty)
        clean(tally, f"{nasty!r} as an option", folder, "check", f"--{nasty}", "good.net")
        clean(tally, f"{nasty!r} as a net", folder, "check", nasty, "good.sheet")
        clean(tally, f"{nasty!r} as a transition", folder, "run", "good.net", "good.sheet", nasty)
        clean(tally, f"{nasty!r} as an output", folder, "draw", "good.net", "-o", nasty)


def by_program(tally, folder):
    """The same through the program and its shell."""
    for arguments_ in ([RED], ["check", TITLE, "good.sheet"], ["run", "good.net", "good.sheet", TURN], ["check", "good.net", "0.sheet"]):
        status, output, errors = program(folder, *arguments_)
        tally.check(f"{arguments_}", status == 2 and not OBEYED.search(output + errors), ascii((status, output, errors)))


def file_names(tally, folder):
    for nasty in (RED, "a\nb: accepted", TURN):
        save(folder, f"{nasty}.sheet", "n:\n  s -> m\nm: a\n  u -> n\n")
        found = clean(tally, f"{nasty!r} as a file", folder, "check", "good.net", f"{nasty}.sheet", status=0)
        tally.same(f"{nasty!r} as a file: lines", found[1].count("\n"), 5)
        clean(tally, f"{nasty!r} written", folder, "short", "good.net", "good.sheet", "-o", f"{nasty}.out", status=0)
        clean(tally, f"{nasty!r} in JSON", folder, "diff", "--json", "good.net", "good.sheet", f"{nasty}.sheet", status=0)
        clean(tally, f"{nasty!r} in the short form's remarks", folder, "short", "good.net", f"{nasty}.sheet", status=0)


def plain_terminals(tally, folder):
    """Names beyond ASCII are no defect where the terminal has no letters for them."""
    save(folder, "far.net", "pl {船 1}\ntr ö -> {船 1}\ntr u {船 1} ->\n")
    status, output, errors = program(folder, "check", "far.net", environment={"LC_ALL": "C", "PYTHONIOENCODING": "ascii", "PYTHONUTF8": "0"})
    tally.same("names beyond ASCII", (status, errors), (0, ""))
    status, output, _ = lineup(folder, "names", "far.net")
    tally.same("names beyond ASCII are kept", (status, output.split("\n")[0]), (0, "pl {船 1}"))


# ---- files with anything in them

JETTY = os.path.join(HOME, "samples", "jetty")
BITS = [b"->", b"*", b":", b"{", b"}", b"(", b")", b"pl ", b"tr ", b"net ", b"sheet ", b"0", b"4294967295", b"4294967296", b"33", b"\x1b", b"\xff", b"\n", b"#", b"tank1", b"<", b"\\"]
COMMANDS = [
    "check jetty.net may.sheet", "check w", "check w may.sheet", "check jetty.net w", "check jetty.pnml may.sheet", "diff jetty.net may.sheet june.sheet",
    "diff jetty.net may.sheet w", "compare jetty.net may.sheet june.sheet", "compare w may.sheet w", "spread w", "spread jetty.net may.sheet", "short w", "bounds w", "run w berth line-up", "mend w", "mend jetty.net may.sheet", "compose jetty.net w", "compose w may.sheet", "trim w", "trim jetty.net may.sheet", "words jetty.net may.sheet", "names w", "names jetty.pnml",
    "check --all w", "check --all jetty.net may.sheet", "diff --all jetty.net may.sheet june.sheet", "diff --all w w may.sheet", "mend jetty.net may.sheet --diff", "short jetty.net june.sheet --diff", "trim jetty.net june.sheet --diff --json", "short jetty.net june.sheet",
    "draw w -o x.svg", "draw --net w -o x.svg", "draw jetty.net may.sheet", "draw jetty.net may.sheet --diff june.sheet --down -o x.svg", "draw w --run berth line-up --width 400 --legend -o x.svg", "page w -o x.html", "page jetty.net may.sheet", "play w --random 20", "play jetty.net may.sheet --random 3 --seed 2",
]


def any_bytes(tally):
    """Whatever stands in the files, a command ends with one of its three statuses, and not in a defect or a disagreement."""
    random.seed(2026)
    files = {name: read(name) for name in ("jetty.net", "may.sheet", "june.sheet", "net.txt", "sheet.txt", "names.txt")}
    files["jetty.pnml"] = pnml.write(netfile.read("", files["jetty.net"].decode())).encode()
    with tempfile.TemporaryDirectory() as folder:
        for turn in range(240):
            for name, data in files.items():
                save(folder, f"w/{name}" if name.endswith(".txt") else name, damaged(data) if random.random() < 0.4 else data)
            command = random.choice(COMMANDS)
            status, output, errors = lineup(folder, *command.split())
            well = status in (0, 1, 2) and not re.search("defect|DISAGREEMENT", errors) and not OBEYED.search(output + errors)
            tally.check(f"turn {turn}: {command}", well, ascii(errors[-600:]))


def read(name):
    with open(os.path.join(JETTY, name), "rb") as file:
        return file.read()


def damaged(data):
    data = bytearray(data)
    for _ in range(random.choice([1, 1, 2, 4])):
        at, from_ = random.randrange(len(data) + 1), random.randrange(len(data) + 1)
        kind = random.randrange(4)
        if kind == 0:
            data[at:at] = random.choice(BITS)
        elif kind == 1:
            del data[at : at + random.choice([1, 2, 5, 20])]
        elif kind == 2:
            data[at:at] = data[from_ : from_ + random.choice([3, 10, 40])]
        else:
            data[at : at + 1] = bytes([random.randrange(256)])
    return bytes(data)
