"""The commit and the kit that a copy of lineup belongs to."""
import os
import subprocess

from lineup.home import HOME


def told():
    """An installed copy has all of it in the file VERSION; in the repository that has the number alone, and git and rt know the rest."""
    path, version = os.path.join(HOME, "VERSION"), "unknown"
    if os.path.exists(path):
        with open(path, encoding="utf-8") as file:
            version = file.read().strip()
    if "\n" in version:
        return version
    own = output(["git", "-C", HOME, "rev-parse", "--show-toplevel"]) == os.path.realpath(HOME)  # and not a repository around it
    commit = own and output(["git", "-C", HOME, "rev-parse", "--short=12", "HEAD"]) or "unknown"
    changed = ", with changes" if output(["git", "-C", HOME, "status", "--porcelain", "--untracked-files=no"]) else ""
    return f"lineup of Wulthrein {version}\ncommit {commit}{changed}\nkit {output(['rt', 'version']) or 'unknown: rt is not on the path'}"


def output(command):
    """What a program prints, nothing where it fails."""
    try:
        done = subprocess.run(command, capture_output=True, text=True, timeout=20, check=False)
    except (OSError, subprocess.TimeoutExpired):
        return ""
    return done.stdout.strip() if done.returncode == 0 else ""
