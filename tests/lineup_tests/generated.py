"""Nets, sheets and logs from the independent implementation, and the sources that lineup would read for them."""
import functools
import os
import subprocess

from lineup import faults, inputs, logfile, names, words
from lineup.home import HOME

REFERENCE = os.path.join(HOME, "target", "reference", "release", "reference")


@functools.cache
def build():
    """Builds the independent implementation, once; where nothing has changed that takes no time."""
    environment = {**os.environ, "CARGO_TARGET_DIR": os.path.join(HOME, "target", "reference")}
    folder = os.path.join(HOME, "tests", "reference")
    subprocess.run(["cargo", "build", "--quiet", "--release", "--offline"], cwd=folder, env=environment, check=True)


def lines(command, seed, count):
    """The operation and the numbers of each part of generated cases; a call of the small panel is as the other."""
    build()
    done = subprocess.run([REFERENCE, command, str(seed), str(count)], capture_output=True, text=True, check=True)
    for line in done.stdout.splitlines():
        operation, _, rest = line.partition(" ")
        parts = {"sheets": []}
        for part in rest.split(" | "):
            name, _, told = part.partition(" ")
            parts[name] = [int(word) for word in told.rpartition(":")[2].split()] if ":" in told else told
            if name == "sheet":
                parts["sheets"].append(parts[name])
        yield str(int(operation) % 100), parts


def net_source(found, path="generated/net.txt"):
    """Words as the net of a folder without names."""
    source = inputs.Source(path, "decimal words")
    source.words = found
    if faults.net_readable(found):
        letters = names.Names()
        source.model = words.net_of(found, letters.of("place", found[0]), letters.of("transition", found[1]))
    return source


def sheet_source(found, net, path="generated/sheet.txt"):
    source = inputs.Source(path, "decimal words")
    source.words = found
    if net.model and faults.sheet_readable(net.words, found):
        source.model = words.sheet_of(found, net.model, names.Names().of("node", found[0]))
    return source


def damaged(seed, count):
    """Pairs of a net and a sheet, most of them damaged, with a record where there is one: (net, sheet, record)."""
    for operation, parts in lines("cases", seed, count):
        if operation in ("2", "3", "5", "6", "7"):
            net = net_source(parts["net"])
            yield net, sheet_source(parts["sheet"], net), parts.get("record")


def logged(seed, count):
    """The same with a log: (net, sheet, log)."""
    for operation, parts in lines("cases", seed, count):
        if operation == "9":
            net = net_source(parts["net"])
            yield net, sheet_source(parts["sheet"], net), log_source(parts["log"])


def stale(seed, count):
    """Pairs of which the sheet is to be mended: (net, sheet)."""
    for operation, parts in lines("cases", seed, count):
        if operation == "10":
            net = net_source(parts["net"])
            yield net, sheet_source(parts["sheet"], net)


def unreached(seed, count):
    """Pairs of which the sheet is to be trimmed: (net, sheet)."""
    for operation, parts in lines("cases", seed, count):
        if operation == "12":
            net = net_source(parts["net"])
            yield net, sheet_source(parts["sheet"], net)


def compared(seed, count):
    """Two sheets of one net, of which one or both may be damaged: (net, one, other)."""
    for operation, parts in lines("cases", seed, count):
        if operation == "14":
            net = net_source(parts["net"])
            yield net, *(sheet_source(sheet, net, f"generated/{name}.txt") for sheet, name in zip(parts["sheets"], ("one", "other")))


def tasks(seed, count):
    """Sheets to compose, as many as the number says: (net, sheets)."""
    for operation, parts in lines("cases", seed, count):
        if operation == "11":
            net, number = net_source(parts["net"]), min(int(parts["number"]), 5)
            yield net, [sheet_source(sheet, net, f"generated/{i}.txt") for i, sheet in enumerate([*parts["sheets"], []][:number])]


def log_source(found, path="generated/log.txt"):
    source = inputs.Source(path, "decimal words")
    source.words = found
    if not faults.log_shape(found):
        source.model = logfile.Log(found[1 : 1 + found[0]], found[1 + found[0] :])
    return source


def siblings(seed, count):
    """Two accepted sheets of one net: (net, one, other)."""
    found = [parts for _, parts in lines("pairs", seed, count)]
    for one, other in zip(found[::2], found[1::2]):
        net = net_source(one["net"])
        yield net, sheet_source(one["sheet"], net, "generated/one.txt"), sheet_source(other["sheet"], net, "generated/other.txt")


def samples():
    """The folders of samples/."""
    root = os.path.join(HOME, "samples")
    return [os.path.join(root, name) for name in sorted(os.listdir(root)) if os.path.isdir(os.path.join(root, name))]
