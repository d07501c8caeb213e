"""Streams that are closed, full or broken: what cannot be written is status 2, told in one line where a line can be written, and never a verdict."""
import os
import shlex
import struct
import subprocess
import tempfile

from lineup.home import HOME

NET = "pl a\ntr s -> a\ntr u a ->\n"
SHEET = "n:\n  s -> m\nm: a\n  u -> n\n"
CLOSED, FULL = "lineup: standard output cannot be written: it is closed\n", "lineup: standard output cannot be written: no space left on device\n"
CHECK, REFUSED, MISSING = "check x.net x.sheet", "check x.net torn.sheet", "check x.net y.sheet"


def run(tally):
    with tempfile.TemporaryDirectory() as folder:
        for name, text in (("x.net", NET), ("x.sheet", SHEET), ("torn.sheet", "n:\n  s -> m\nm: a\n")):
            with open(os.path.join(folder, name), "w", encoding="utf-8") as file:
                file.write(text)
        for suffix in ("txt", "bin"):  # of which a remark has to be made
            os.makedirs(os.path.join(folder, "w"), exist_ok=True)
            with open(os.path.join(folder, "w", f"net.{suffix}"), "wb") as file:
                file.write(struct.pack("<7I", 1, 2, 2, 1, 2, 1, 1) if suffix == "bin" else b"1 2 2 1 2 1 1")
        accepted = called(folder, CHECK, "")
        refused = called(folder, REFUSED, "")
        missing = called(folder, MISSING, "")
        tally.same("statuses with both streams", (accepted[0], refused[0], missing[0]), (0, 1, 2))
        cases = [
            (CHECK, "2>&-", accepted), (CHECK, "2> /dev/full", accepted), (CHECK, "<&-", accepted), (CHECK, "<&- 2>&-", accepted), (CHECK, "< .", accepted), (REFUSED, "< .", refused), (REFUSED, "2>&-", refused), (REFUSED, "<&-", refused),
            (CHECK, ">&-", (2, "", CLOSED)), (CHECK, "<&- >&-", (2, "", CLOSED)), (CHECK, "> /dev/full", (2, "", FULL)), (CHECK, ">&- 2>&-", (2, "", "")), (CHECK, "> /dev/full 2>&1", (2, "", "")),
            (CHECK, "<&- >&- 2>&-", (2, "", "")), (REFUSED, ">&-", (2, "", CLOSED)), (REFUSED, "> /dev/full", (2, "", FULL)),
            (MISSING, ">&-", missing), (MISSING, "2>&-", (2, "", "")), (MISSING, "2> /dev/full", (2, "", "")), (f"{MISSING} --json", ">&-", missing), (f"{MISSING} --json", "> /dev/full", missing),
            ("--help", ">&-", (2, "", CLOSED)), ("--help", "> /dev/full", (2, "", FULL)), ("check --help", "> /dev/full", (2, "", FULL)), ("--version", "> /dev/full", (2, "", FULL)),
            (f"{CHECK} -o report", ">&-", (0, "", "")), (f"{CHECK} -o report", ">&- 2>&-", (0, "", "")), ("words x.net x.sheet -o v", ">&-", (2, "", CLOSED)),
            (f"{CHECK} -o /dev/full", "", (2, "", "lineup: /dev/full: cannot be written: no space left on device\n")),
            (f"{CHECK} -o /dev/stdout", ">&-", (2, "", "lineup: /dev/stdout: cannot be written: is a directory\n")),
            ("check w", "2>&-", (2, "", "")), ("check w", "2> /dev/full", (2, "", "")), (CHECK, "| true", (2, "", "")), (MISSING, "2>&1 | true", (2, "", "")), (f"{MISSING} --json", "2>&1 | true", (2, "", "")),
        ]
        for command, redirected, should in cases:
            tally.same(f"{command} {redirected}", called(folder, command, redirected), should)


def called(folder, command, redirected):
    """Status, standard output and standard error of the program under a shell. A pipe is read by nobody from the start."""
    script = f"{shlex.quote(os.path.join(HOME, 'lineup'))} {command} {redirected}"
    if redirected.endswith("| true"):
        script = f"set -o pipefail; {{ sleep 0.2; {script[:-6]}; }} | true"
    done = subprocess.run(["bash", "-c", script], cwd=folder, capture_output=True, text=True, check=False)
    return done.returncode, done.stdout, done.stderr
