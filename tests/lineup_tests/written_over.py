"""What -o writes over: never what the command reads; and what is there already only if lineup wrote it and nobody has changed it, or with --force."""
import os
import shutil
import struct
import tempfile

from called import lineup

NET = "pl a\ntr s -> a\ntr u a ->\n"
SHEET = "n:\n  s -> m\nm: a\n  u -> n\n"
TIMES = "s 1 2\nu 1 2\n"
INPUTS = {"x.net": NET, "x.sheet": SHEET, "x.times": TIMES, "x.log": "log x\n"}
READ = "this command reads it, and so does not write over it"
OTHER = "is there already, and is not as lineup wrote it: name another file, or give --force"

# a command, and the files that it writes
COMMANDS = {
    "check x.net x.sheet -o out": ["out"],
    "check x.net x.sheet --json -o out": ["out"],
    "check x.net -o out": ["out"],
    "bounds x.net x.sheet -o out.txt": ["out.txt"],
    "replay x.net x.sheet x.log -o out": ["out"],
    "short x.net x.sheet -o out.sheet": ["out.sheet"],
    "mend x.net x.sheet -o out.sheet": ["out.sheet"],
    "trim x.net x.sheet -o out.sheet": ["out.sheet"],
    "compose x.net x.sheet -o out.sheet": ["out.sheet"],
    "times x.net x.sheet x.times -o out.svg": ["out.svg"],
    "find x.net x.sheet a=1 -o out": ["out"],
    "check --all x.net x.sheet -o out": ["out"],
    "explain 15 -o out": ["out"],
    "completion bash -o out": ["out"],
    "words x.net x.sheet -o w": ["w/net.txt", "w/sheet.txt", "w/names.txt"],
    "words x.net x.sheet --binary -o w": ["w/net.bin", "w/sheet.bin", "w/names.txt"],
    "names x.net x.sheet -o out": ["out.net", "out.sheet"],
    "names x.net --pnml -o out": ["out.pnml"],
    "draw x.net x.sheet -o out.svg": ["out.svg"],
    "draw x.net x.sheet -o out.dot": ["out.dot"],
    "page x.net x.sheet x.log -o out.html": ["out.html"],
    "play x.net x.sheet --random 3 --seed 1 -o out.log": ["out.log"],
}
DRAWN = {"draw x.net -o out.png": ["out.png"], "draw x.net -o out.pdf": ["out.pdf"], "draw x.net --graphviz -o out.svg": ["out.svg"]}


def run(tally):
    for command, written in {**COMMANDS, **(DRAWN if shutil.which("dot") else {})}.items():
        with tempfile.TemporaryDirectory() as folder:
            over(tally, folder, command, written)
    with tempfile.TemporaryDirectory() as folder:
        inputs(tally, folder)
        words(tally, folder)


def laid(folder):
    for name, text in INPUTS.items():
        save(folder, name, text)


def save(folder, name, data):
    path = os.path.join(folder, name)
    os.makedirs(os.path.dirname(path), exist_ok=True)
    with open(path, "wb") as file:
        file.write(data if isinstance(data, bytes) else data.encode())


def read(folder, name):
    with open(os.path.join(folder, name), "rb") as file:
        return file.read()


def over(tally, folder, command, written):
    """The same again, over a note, over what somebody changed, over nothing, and by force."""
    laid(folder)
    call = lambda *more: lineup(folder, *command.split(), *more)
    first, found = call(), {}
    for name in written:
        found[name] = read(folder, name)
    tally.same(f"{command}, again", (call(), {name: read(folder, name) for name in written}), (first, found))
    for name in written:
        changes = {"a note": b"tank 3 is out of order\n"}
        if b"written by lineup, " in found[name]:
            changes.update({"changed": found[name].replace(b"a", b"b", 1), "added to": found[name] + b"# and more\n"})
        for what, data in changes.items():
            save(folder, name, data)
            status, output, errors = call()
            tally.same(f"{command}, {name} is {what}", (status, errors), (2, f"lineup: {name}: {OTHER}\n"))
            tally.same(f"{command}, {name} is {what}: kept, and nothing else written", [read(folder, other) for other in written], [data if other == name else found[other] for other in written])
            tally.same(f"{command}, {name} is {what}, by force", (call("--force")[0], read(folder, name)), (0, found[name]))
        save(folder, name, b"")
        tally.same(f"{command}, {name} is empty", (call()[0], read(folder, name)), (0, found[name]))


def inputs(tally, folder):
    """By any name of the file, and whatever force."""
    laid(folder)
    os.symlink("x.sheet", os.path.join(folder, "link"))
    os.link(os.path.join(folder, "x.net"), os.path.join(folder, "same"))
    cases = {
        "check x.net x.sheet -o x.net": "x.net", "check x.net x.sheet -o x.sheet": "x.sheet", "check x.net x.sheet -o ./x.sheet": "./x.sheet", "check x.net x.sheet -o link": "link", "check x.net x.sheet -o same": "same",
        "mend x.net x.sheet -o x.sheet": "x.sheet", "short x.net x.sheet -o x.net": "x.net", "trim x.net link -o x.sheet": "x.sheet", "compose x.net x.sheet -o x.sheet": "x.sheet",
        "names x.net x.sheet -o x": "x.net", "names x.net -o x.net": "x.net", "replay x.net x.sheet x.log -o x.log": "x.log",
    }
    for command, name in cases.items():
        for more in ([], ["--force"]):
            found = lineup(folder, *command.split(), *more)
            tally.same(f"{command} {more}", (found[0], found[2]), (2, f"lineup: {name}: {READ}\n"))
    tally.same("the inputs are as they were", {name: read(folder, name).decode() for name in INPUTS}, INPUTS)
    lineup(folder, "mend", "x.net", "x.sheet", "-o", "mended.sheet")
    tally.same("what lineup wrote is an input too", lineup(folder, "short", "x.net", "mended.sheet", "-o", "mended.sheet")[0], 2)
    tally.same("a next command may write over it", lineup(folder, "short", "x.net", "x.sheet", "-o", "mended.sheet")[0], 0)
    tally.same("a form gives way to its own form alone", lineup(folder, "draw", "x.net", "-o", "p.svg")[0] + lineup(folder, "check", "x.net", "-o", "p.svg")[0], 2)


def words(tally, folder):
    """A folder that is read is not written over, nor is what stands there in the other form removed."""
    for binary in ([], ["--binary"]):
        lineup(folder, "words", "x.net", "x.sheet", *binary, "-o", "d")
        before = sorted(os.listdir(os.path.join(folder, "d")))
        for more in ([], ["--binary"], ["--force"]):
            found = lineup(folder, "words", "d", *more, "-o", "d")
            tally.same(f"words {binary} over themselves {more}", (found[0], READ in found[2], sorted(os.listdir(os.path.join(folder, "d")))), (2, True, before))
    save(folder, "e/net.txt", "1 2 2 1 2 1 1 # by hand\n")
    found = lineup(folder, "words", "x.net", "--binary", "-o", "e")
    tally.same("words by hand are not removed", (found[::2], os.listdir(os.path.join(folder, "e"))), ((2, f"lineup: e/net.txt: {OTHER}\n"), ["net.txt"]))
    tally.same("but by force", (lineup(folder, "words", "x.net", "--binary", "--force", "-o", "e")[0], sorted(os.listdir(os.path.join(folder, "e")))), (0, ["names.txt", "net.bin"]))
    save(folder, "h/net.bin", struct.pack("<5I", 7, 7, 7, 7, 7))
    tally.same("bytes of another form", lineup(folder, "words", "x.net", "-o", "h")[::2], (2, f"lineup: h/net.bin: {OTHER}\n"))
