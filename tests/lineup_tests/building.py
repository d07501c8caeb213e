"""Building: what is missing or older than its source is built by rt, and what goes wrong there is told."""
import contextlib
import io
import os
import tempfile

from lineup import home
from lineup.trouble import Trouble

RT = """#!/bin/sh
name=$(basename "$PWD")
echo "$@ in $name" >> "$CALLED"
echo 'rt: one line' >&2
echo 'another line' >&2
echo 'what the program prints'
mkdir -p out && printf '#!/bin/sh\n' > "out/$name" && chmod +x "out/$name"
exit ${RT_STATUS-0}
"""


def run(tally):
    before = home.HOME, os.environ["PATH"]
    with tempfile.TemporaryDirectory() as folder:
        try:
            home.HOME = folder
            stages(tally, folder)
        finally:
            home.HOME, os.environ["PATH"] = before
            for name in ("RT_STATUS", "CALLED"):
                os.environ.pop(name, None)


def stages(tally, folder):
    os.makedirs(os.path.join(folder, "crates", "calls"))
    os.makedirs(os.path.join(folder, "crates", "one", "src", "deep"))
    os.makedirs(os.path.join(folder, "tools"))
    source = save(folder, "crates/one/src/deep/main.rt", "")
    save(folder, "crates.txt", "")
    os.environ["PATH"] = os.path.join(folder, "tools") + ":/usr/bin:/bin"
    os.environ["CALLED"] = called = os.path.join(folder, "called")
    told(tally, "without rt", "calls is not built, and rt, the Rattle kit, is not on the path")
    os.chmod(save(folder, "tools/rt", RT), 0o755)
    told(tally, "missing", None, "lineup: proving and building calls", "rt: one line\n")
    told(tally, "built", None)
    os.utime(source, (2_000_000_000, 2_000_000_000))
    told(tally, "older than its source", None, "proving and building")
    os.environ["RT_STATUS"] = "1"
    told(tally, "not proved", "calls could not be built")
    with open(called, encoding="utf-8") as file:
        tally.same("calls of rt", file.read(), "run in calls\n" * 3)
    with open(os.path.join(folder, "target", "log", "calls"), encoding="utf-8") as file:
        tally.same("what is kept of the last", file.read(), "rt: one line\nanother line\n")
    os.unlink(os.path.join(folder, "crates.txt"))
    os.makedirs(os.path.join(folder, "programs"))
    os.rename(os.path.join(folder, "crates", "calls", "out", "calls"), os.path.join(folder, "programs", "calls"))
    told(tally, "an installed copy builds nothing", None)
    os.unlink(os.path.join(folder, "programs", "calls"))
    told(tally, "an installed copy without its program", "the program is missing")


def save(folder, name, text):
    path = os.path.join(folder, name)
    with open(path, "w", encoding="utf-8") as file:
        file.write(text)
    return path


def told(tally, what, trouble, *errors):
    """What building tells, and the trouble it ends in, if any."""
    stream = io.StringIO()
    with contextlib.redirect_stderr(stream):
        try:
            home.program("calls")
            tally.check(f"{what}: ends well", trouble is None)
        except Trouble as found:
            tally.holds(f"{what}: trouble", str(found), trouble or "none was expected")
    tally.holds(f"{what}: errors", stream.getvalue(), *errors)
    tally.check(f"{what}: rt's lines alone", "another line" not in stream.getvalue() and "the program prints" not in stream.getvalue())
    if not errors and not trouble:
        tally.same(f"{what}: silent", stream.getvalue(), "")
