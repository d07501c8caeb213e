"""The first start: ./run builds the checker and tells that lineup needs one more program; ./lineup then builds that one and tells what is left; after that nothing is built."""
import glob
import os
import shutil
import subprocess
import tempfile

from lineup.home import HOME

# stands for rt: lays the program asked for, and stamps it and the libraries that it stands on
RT = """#!/bin/sh
name=$(basename "$PWD")
echo "$@ in $name" >> "$CALLED"
echo 'rt: one line' >&2
mkdir -p out && cp "$BUILT/$name/out/$name" out
for crate in $STAMPED; do mkdir -p "../$crate/out/rlib" && echo > "../$crate/out/rlib/stamp"; done
rm -r out/rlib && echo > "out/$name.stamp"
"""


def run(tally):
    with tempfile.TemporaryDirectory() as folder:
        copy(folder)
        stages(tally, folder)


def copy(folder):
    """The repository without what is built, and the crates as far as their source goes."""
    for name in ("run", "lineup", "crates.txt"):
        shutil.copy(os.path.join(HOME, name), folder)
    for name in ("python", "samples", "crates"):
        shutil.copytree(os.path.join(HOME, name), os.path.join(folder, name), ignore=shutil.ignore_patterns("__pycache__", "proofs", "specs", "must-fail", "out"))
    os.makedirs(os.path.join(folder, "tools"))
    with open(os.path.join(folder, "tools", "rt"), "w", encoding="utf-8") as file:
        file.write(RT)
    os.chmod(file.name, 0o755)


def stages(tally, folder):
    checker, calls = needed("checker"), needed("calls")
    left = len(set(calls) - set(checker))
    building = "lineup: proving and building calls, the program that lineup asks, and nothing else; "
    told = called(tally, folder, "./run samples/jetty", "run in checker\n")
    tally.same("./run tells what is built and what is not", told, [
        "run: proving and building the checker; from nothing this takes some minutes",
        "rt: one line",
        "run: the checker is built; ./lineup asks another program, which its first start proves and builds, or make build does it now",
    ])
    tally.same("./run again", called(tally, folder, "./run samples/jetty", ""), [])
    told = called(tally, folder, "./lineup check samples/jetty", "run in calls\n")
    tally.same("./lineup tells what is left", told, [f"{building}at most {left} of its {len(calls)} crates are left to prove, and the others are kept", "rt: one line"])
    tally.check("some are left and some are kept", 0 < left < len(calls), (left, len(calls)))
    for command in ("./lineup check samples/jetty", "./run samples/jetty", "./lineup short samples/four-nodes"):
        tally.same(f"{command}, then", called(tally, folder, command, ""), [])
    for made in glob.glob(os.path.join(folder, "crates", "*", "out")):
        shutil.rmtree(made)
    told = called(tally, folder, "./lineup check samples/jetty", "run in calls\n")
    tally.same("./lineup from nothing", told, [f"{building}from nothing this takes some minutes", "rt: one line"])
    told = called(tally, folder, "./run samples/jetty", "run in checker\n")
    tally.same("./run after ./lineup", told, ["run: proving and building the checker; from nothing this takes some minutes", "rt: one line"])
    os.utime(os.path.join(folder, "crates", "mend", "src", "lib.rt"))
    told = called(tally, folder, "./lineup check samples/jetty", "run in calls\n")
    tally.same("a crate that changed, and those that stand on it: mend, panel, calls", told, [f"{building}at most 3 of its {len(calls)} crates are left to prove, and the others are kept", "rt: one line"])


def needed(name):
    """A crate and those that stand below it, near and far."""
    with open(os.path.join(HOME, "crates.txt"), encoding="utf-8") as file:
        lists = {line.split()[0].rstrip(":"): line.split(":")[1].split() for line in file if not line.startswith("#") and ":" in line}
    found = [name]
    for crate in found:  # which grows meanwhile
        found += [other for other in lists[crate] if other in lists and other not in found]
    return found


def called(tally, folder, command, built):
    """What a command tells on standard error; it has to accept, and to call rt as said."""
    log = os.path.join(folder, "called")
    open(log, "w", encoding="utf-8").close()
    environment = {**os.environ, "PATH": os.path.join(folder, "tools") + ":/usr/bin:/bin", "CALLED": log, "BUILT": os.path.join(HOME, "crates"), "STAMPED": " ".join(needed(built.split()[-1]) if built else [])}
    done = subprocess.run(command.split(), cwd=folder, env=environment, capture_output=True, text=True, check=False)
    with open(log, encoding="utf-8") as file:
        tally.same(f"{command}: status, and calls of rt", (done.returncode, file.read()), (0, built))
    return done.stderr.splitlines()
