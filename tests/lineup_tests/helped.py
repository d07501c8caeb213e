"""Help: refusals by number without the core, the version, completion in a real bash, and colour on a terminal alone."""
import errno
import json
import os
import pty
import re
import shutil
import subprocess
import tempfile

from called import lineup, program
from lineup import cli, commands, home
from lineup.home import HOME
from lineup.refusals import REFUSALS

NET, SHEET, TORN = "pl a\ntr s -> a\ntr u a ->\n", "n:\n  s -> m\nm: a\n  u -> n\n", "n:\n  s -> m\nm: a\n"
FILES = {"x.net": NET, "x.sheet": SHEET, "torn.sheet": TORN, "stale.sheet": SHEET.replace(": a", ":")}


def run(tally):
    with tempfile.TemporaryDirectory() as folder:
        for name, text in FILES.items():
            with open(os.path.join(folder, name), "w", encoding="utf-8") as file:
                file.write(text)
        refusals(tally, folder)
        usages(tally, folder)
        version(tally, folder)
        bash(tally, folder)
        zsh(tally, folder)
        colours(tally, folder)


def refusals(tally, folder):
    """From a copy that has no core and nothing else."""
    before = home.HOME
    try:
        home.HOME = os.path.join(folder, "nowhere")
        for number, (word, meaning, remedy) in REFUSALS.items():
            found = lineup(folder, "explain", str(number))
            tally.same(f"explain {number}: status", (found[0], found[2]), (0, ""))
            tally.holds(f"explain {number}", found[1], f"{number} {word}\n  {meaning}\n  to do: {remedy[0].lower()}{remedy[1:]}\n  it is ")
            tally.same(f"help {number}, and by its word", (lineup(folder, "help", str(number)), lineup(folder, "explain", word)), (found, found))
        tally.same("all are listed", [line.split(maxsplit=1) for line in lineup(folder, "explain")[1].splitlines()], [[str(number), REFUSALS[number].word] for number in sorted(REFUSALS)])
        both = lineup(folder, "explain", "15", "12")[1]
        tally.same("two at once", both, lineup(folder, "explain", "15")[1] + lineup(folder, "explain", "12")[1])
    finally:
        home.HOME = before
    abouts = {5: "about the net", 9: "about the words of a sheet", 15: "about a sheet that can be read", 20: "a list of firings or a log", 23: "about a log", 25: "with mend", 30: "with compose", 33: "with times", 31: "only for programs"}
    for number, part in abouts.items():
        tally.holds(f"explain {number}: what it is about", lineup(folder, "explain", str(number))[1], part)
    tally.same("explain in JSON", json.loads(lineup(folder, "explain", "15", "--json")[1]), {"refusals": [{"number": 15, **REFUSALS[15]._asdict(), "about": "about a sheet that can be read, with check and every command that checks"}]})
    for text, part in (("0", "0 is no refusal: it says accepted"), ("34", "there is no refusal 34: the numbers are 1 to 33"), ("9" * 5000, "there is no refusal 9999"), ("wrong landin", "(did you mean 'wrong landing'?)"), ("³", "there is no refusal '³'"), ("xyzzy", "there is no refusal 'xyzzy' (lineup explain lists them)")):
        found = lineup(folder, "explain", text)
        tally.check(f"explain {text[:20]}", found[0] == 2 and part in found[2] and len(found[2]) < 200, found)


def usages(tally, folder):
    tally.same("help is --help", lineup(folder, "help"), lineup(folder, "--help"))
    for name in commands.NAMES:
        tally.same(f"help {name}", lineup(folder, "help", name), lineup(folder, name, "--help"))
    tally.same("a slip", lineup(folder, "help", "chek")[::2], (2, "lineup: no command and no refusal 'chek' (did you mean 'check'?) (lineup help lists the commands, lineup explain the refusals)\n"))


def version(tally, folder):
    with open(os.path.join(HOME, "VERSION"), encoding="utf-8") as file:
        number = file.read().strip()
    tally.check("the number of the version", re.fullmatch(r"\d+\.\d+\.\d+", number), number)
    found = lineup(folder, "--version")
    tally.check("--version", found[0] == 0 and found[1].startswith(f"lineup of Wulthrein {number}\ncommit "), found)


# ---- completion


def bash(tally, folder):
    """What bash offers, for a line whose last word is being typed."""
    script = lineup(folder, "completion", "bash")
    tally.same("completion bash: status", (script[0], script[2]), (0, ""))
    cases = {
        ("lineup", ""): [*commands.NAMES], ("lineup", "ch"): ["check"], ("lineup", "--v"): ["--version"], ("lineup", "check", "--a"): ["--all"], ("lineup", "mend", "x.net", "--d"): ["--diff"], ("lineup", "check", ""): [],
        ("lineup", "check", "x"): [], ("lineup", "completion", ""): ["bash", "zsh"], ("lineup", "explain", "3"): ["3", "30", "31", "32", "33"], ("lineup", "help", "re"): ["replay"], ("lineup", "completion", "-o", ""): [], ("lineup", "nothing", ""): [],
        ("lineup", "words", "--"): ["--help", "--binary", "--force", "--strict", "--json"],
    }
    for words, should in cases.items():
        line = " ".join(f"'{word}'" for word in words)
        text = f"{script[1]}\nCOMP_WORDS=({line}) COMP_CWORD={len(words) - 1}\n_lineup\nprintf '%s\\n' \"${{COMPREPLY[@]}}\""
        done = subprocess.run(["bash", "-uc", text], cwd=folder, capture_output=True, text=True, check=False)
        tally.same(f"bash completes {words}", (done.returncode, done.stdout.split(), done.stderr), (0, should, ""))
    done = subprocess.run(["bash", "-c", f"{script[1]}\ncomplete -p lineup"], capture_output=True, text=True, check=False)
    tally.same("bash completes files otherwise", done.stdout, "complete -o default -F _lineup lineup\n")
    tally.same("another shell", lineup(folder, "completion", "fish")[0], 2)


def zsh(tally, folder):
    """The script names every command and option, with quotes that are closed; zsh itself reads it where there is one."""
    text = lineup(folder, "completion", "zsh")[1]
    top, modules = cli.parser()
    for name, module in modules.items():
        line = next((line for line in text.splitlines() if line.startswith(f"    {name}) _arguments ")), "")
        options = [word for action in cli.command(top, name)._actions for word in action.option_strings]
        tally.same(f"zsh: options of {name}", re.findall(r" '(-[-a-z]+)\[", line), options)
        tally.holds(f"zsh: {name}", text, f"    '{name}:{module.SUMMARY[:10]}")
        tally.same(f"zsh: quotes of {name}", line.replace("'\\''", "").count("'") % 2, 0)
    if shutil.which("zsh"):
        done = subprocess.run(["zsh", "-n"], input=text, capture_output=True, text=True, check=False)
        tally.same("zsh reads it", (done.returncode, done.stderr), (0, ""))


# ---- colour


def colours(tally, folder):
    """On a terminal, and there only, and not where somebody wants none; without its colours the text is the same."""
    cases = {"check x.net x.sheet": "32", "check x.net torn.sheet": "31", "compare x.net x.sheet torn.sheet": "33", "check --all x.net stale.sheet": "31"}
    for command, code in cases.items():
        plain = program(folder, *command.split(), environment={"TERM": "xterm", "NO_COLOR": ""})[1]
        tally.check(f"{command}: none in a pipe", "\x1b" not in plain and plain, plain)
        shown = terminal(folder, command, TERM="xterm", NO_COLOR="")
        first, *rest = shown.split("\n")
        tally.same(f"{command}: the verdict", first, f"\x1b[{code}m{plain.splitlines()[0]}\x1b[0m")
        tally.same(f"{command}: the core's lines", [line for line in rest if line.startswith("\x1b[2m")], [f"\x1b[2m{line}\x1b[0m" for line in plain.splitlines() if line.startswith("  core: ")])
        tally.same(f"{command}: the text", re.sub(r"\x1b\[\d+m", "", shown), plain)
        for what in ({"NO_COLOR": "1", "TERM": "xterm"}, {"NO_COLOR": "", "TERM": "dumb"}):
            tally.same(f"{command}: none with {what}", terminal(folder, command, **what), plain)
    for command in ("words x.net", "names x.net x.sheet", "explain", "check x.net x.sheet --json", "--help"):
        tally.check(f"{command}: no verdict, no colour", "\x1b" not in terminal(folder, command, TERM="xterm", NO_COLOR=""))
    tally.same("a text begins with remarks", terminal(folder, "mend x.net stale.sheet", TERM="xterm", NO_COLOR="").count("\x1b"), 0)
    tally.same("trouble", terminal(folder, "check y.net", TERM="xterm", NO_COLOR="").split(" ")[0], "\x1b[31mlineup:\x1b[0m")


def terminal(folder, command, **environment):
    """What a terminal is sent, on both streams."""
    leader, follower = pty.openpty()
    done = subprocess.Popen([os.path.join(HOME, "lineup"), *command.split()], cwd=folder, stdin=subprocess.DEVNULL, stdout=follower, stderr=follower, env={**os.environ, **environment})
    os.close(follower)
    found = b""
    while True:
        try:
            part = os.read(leader, 65536)
        except OSError as error:
            if error.errno != errno.EIO:
                raise
            break  # nobody holds the other end any more
        if not part:
            break
        found += part
    done.wait()
    os.close(leader)
    return found.decode().replace("\r\n", "\n")
