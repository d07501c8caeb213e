"""The README and the pages of docs/ that show commands: each is run again, and prints what the page says. The table of refusals is the program's own."""
import os
import re
import subprocess
import tempfile

from lineup.home import HOME
from lineup.refusals import REFUSALS

PAGES = ["../README.md", "PLANNERS-DAY.md", "CHEMIST.md", "FORMAT.md"]
ENGINE = os.path.join(HOME, "crates", "plainly", "src")


def run(tally):
    for name in PAGES:
        with open(os.path.join(HOME, "docs", name), encoding="utf-8") as file:
            page = file.read()
        again = replayed(page)
        for i, (is_, should) in enumerate(zip(again.split("\n"), page.split("\n")), 1):
            tally.same(f"docs/{name}:{i}", is_, should)
        tally.same(f"docs/{name}: lines", again.count("\n"), page.count("\n"))
    shown(tally)
    told = re.findall(r"(?m)^\| (\d+) \| ([^|]*) \| ([^|]*) \| ([^|]*) \|$", page)
    tally.same("the refusals of docs/FORMAT.md", {int(number): tuple(rest) for number, *rest in told}, {n: tuple(found) for n, found in REFUSALS.items()})


def shown(tally):
    """The blocks of code on the page of the slow engine are lines of its sources, contracts left out."""
    code = ""
    for name in sorted(os.listdir(ENGINE)):
        with open(os.path.join(ENGINE, name), encoding="utf-8") as file:
            code += re.sub(r"(?m)^ *(requires|ensures) .*\n", "", file.read())
    with open(os.path.join(HOME, "docs", "CHEMIST.md"), encoding="utf-8") as file:
        blocks = re.findall(r"(?ms)^```rust\n(.*?)^```$", file.read())
    tally.check("docs/CHEMIST.md shows code", len(blocks) > 5)
    for block in blocks:
        tally.check(f"docs/CHEMIST.md: {block.splitlines()[0].strip()}", "\n" + block in code)


def replayed(page):
    """The page with what its commands print now. A command is a line `$ COMMAND` in a block that is set in; `$ cat FILE` of a file that is not
    there yet makes the file from what the page shows."""
    with tempfile.TemporaryDirectory() as folder:
        os.symlink(os.path.join(HOME, "samples"), os.path.join(folder, "samples"))
        for name in "run", "lineup":
            with open(os.path.join(folder, name), "w", encoding="utf-8") as file:
                file.write(f'#!/bin/sh\nexec "{HOME}/{name}" "$@"\n')
            os.chmod(os.path.join(folder, name), 0o755)
        shell = Shell(folder)
        return re.sub(r"(?m)^    \$ (.*)\n((?:    (?!\$ ).*\n|\n(?=(?:\n)*    (?!\$ )))*)", shell.command, page)


class Shell:
    def __init__(self, folder):
        self.folder, self.status = folder, 0

    def command(self, found):
        command, shown = found.groups()
        name = command[4:] if command.startswith("cat ") else None
        if name and not os.path.exists(os.path.join(self.folder, name)):
            with open(os.path.join(self.folder, name), "w", encoding="utf-8") as file:
                file.write(re.sub(r"(?m)^    ", "", shown))
        environment = {**os.environ, "PATH": HOME + os.pathsep + os.environ["PATH"], "LC_ALL": "C.UTF-8"}
        script = f"(exit {self.status})\n{command}"
        done = subprocess.run(["sh", "-c", script], cwd=self.folder, env=environment, stdout=subprocess.PIPE, stderr=subprocess.STDOUT, text=True, check=False)
        self.status = done.returncode
        output = re.sub(r"(?m)^(?=.)", "    ", done.stdout)
        return f"    $ {command}\n{output}"
