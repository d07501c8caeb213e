"""lineup called as its users do: by its program, or, where many calls are made, in this process."""
import contextlib
import io
import os
import subprocess

from lineup import cli
from lineup.home import HOME


def program(folder, *arguments, environment=None):
    """Status, standard output and standard error of the program."""
    command = [os.path.join(HOME, "lineup"), *arguments]
    done = subprocess.run(command, cwd=folder, capture_output=True, check=False, env={**os.environ, **(environment or {})})
    return done.returncode, done.stdout.decode(errors="surrogateescape"), done.stderr.decode(errors="surrogateescape")


def lineup(folder, *arguments):
    """The same in this process."""
    streams = [io.TextIOWrapper(io.BytesIO(), encoding="utf-8") for _ in range(2)]
    before = os.getcwd()
    os.chdir(folder)
    try:
        with contextlib.redirect_stdout(streams[0]), contextlib.redirect_stderr(streams[1]):
            try:
                status = cli.main(list(arguments))
            except SystemExit as end:
                status = end.code or 0
    finally:
        os.chdir(before)
    for stream in streams:
        stream.flush()
    return (status, *(stream.buffer.getvalue().decode(errors="surrogateescape") for stream in streams))
