"""Where the product lies, and its programs, built where they are missing or older than their source."""
import os
import re
import shutil
import subprocess

from lineup import streams
from lineup.trouble import Trouble

HOME = os.path.dirname(os.path.dirname(os.path.dirname(os.path.abspath(__file__))))


def program(name):
    """The path of a program that the proofs build. An installed copy has no source and builds nothing."""
    path = made(name, name) if has_source() else os.path.join(HOME, "programs", name)
    if has_source():
        if not os.access(path, os.X_OK) or newest_source() > os.stat(path).st_mtime_ns:
            build(name, path)
    elif not os.access(path, os.X_OK):
        raise Trouble("the program is missing: install lineup again", path)
    return path


def library():
    """The path of the shared object, where `make shared` has built it and it is not older than the source; nothing otherwise."""
    path = os.path.join(HOME, "target", "shared", "libwulthrein.so")
    if not os.path.exists(path) or has_source() and newest_source() > os.stat(path).st_mtime_ns:
        return None
    return path


def made(crate, *names):
    """A path among what is made of a crate."""
    return os.path.join(HOME, "crates", crate, "out", *names)


def has_source():
    return os.path.exists(os.path.join(HOME, "crates.txt"))


def newest_source():
    """When the source of a crate, or the list of crates, changed last."""
    times = [os.stat(os.path.join(HOME, "crates.txt")).st_mtime_ns]
    for crate in os.scandir(os.path.join(HOME, "crates")):
        for folder, _, names in os.walk(os.path.join(crate.path, "src")):
            times += [os.stat(os.path.join(folder, name)).st_mtime_ns for name in names]
    return max(times)


def build(name, path):
    """Proves and builds a program, as ./run does, and no other."""
    streams.tell(f"lineup: proving and building {name}, the program that lineup asks, and nothing else; {still(name)}\n")
    if shutil.which("rt") is None:
        raise Trouble(f"{name} is not built, and rt, the Rattle kit, is not on the path")
    log = os.path.join(HOME, "target", "log", name)
    try:
        os.makedirs(os.path.dirname(log), exist_ok=True)
        with open(log, "w", encoding="utf-8") as kept:
            status = prove(name, kept)
    except OSError as error:
        raise Trouble(f"{name} could not be built: {error.strerror}", error.filename) from None
    if status != 0 or not os.access(path, os.X_OK):
        raise Trouble(f"{name} could not be built; {log} tells more")
    os.utime(path)


def prove(name, kept):
    """Has rt prove and build a program, which it also runs, on no input. What rt tells is kept, and its own lines are shown."""
    streams_of = {"stdin": subprocess.DEVNULL, "stdout": subprocess.DEVNULL, "stderr": subprocess.PIPE}
    with subprocess.Popen(["rt", "run"], cwd=os.path.join(HOME, "crates", name), text=True, errors="replace", **streams_of) as prover:
        for line in prover.stderr:
            kept.write(line)
            if line.startswith("rt: "):
                streams.tell(line)
    return prover.returncode


def still(name):
    """What is left to do for a program, as far as files tell: rt knows better, and may find that less is left."""
    lists = dict(re.findall(r"(?m)^(\w+):(.*)$", read("crates.txt")))
    crates = below(name, lists)
    changed = {crate for crate in crates if is_left(crate)}
    left = [crate for crate in crates if changed & below(crate, lists)]
    if len(left) == len(crates):
        return "from nothing this takes some minutes"
    return f"at most {len(left)} of its {len(crates)} crates are left to prove, and the others are kept"


def below(name, lists):
    """A crate and all that it stands on; what the list of crates does not have is the kit's own."""
    found, todo = {name}, [name]
    while todo:
        more = {crate for crate in lists.get(todo.pop(), "").split() if crate in lists} - found
        found |= more
        todo += more
    return found


def is_left(crate):
    """Whether a crate has no stamp, or changed after it. A library's stands beside it, a program's has its name."""
    stamps = [path for path in (made(crate, "rlib", "stamp"), made(crate, f"{crate}.stamp")) if os.path.exists(path)]
    if not stamps:
        return True
    stamped = os.stat(stamps[0]).st_mtime_ns
    walked = (os.walk(os.path.join(HOME, "crates", crate, part)) for part in ("src", "specs", "proofs"))
    return any(os.stat(os.path.join(folder, name)).st_mtime_ns > stamped for walk in walked for folder, _, names in walk for name in names)


def read(name):
    with open(os.path.join(HOME, name), encoding="utf-8") as file:
        return file.read()
