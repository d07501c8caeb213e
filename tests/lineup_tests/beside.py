"""What is installed beside the commands: the pages and samples that the manual page names, and the package for Python programs."""
import os
import re
import shlex
import subprocess
import sys
import tempfile


def run(tally, prefix):
    """Looks at what `make install` has left below a prefix."""
    named(tally, prefix)
    module(tally, prefix)


def named(tally, prefix):
    """What the manual page names stands where it says, and its examples can be typed there as they are."""
    with open(os.path.join(prefix, "share", "man", "man1", "lineup.1"), encoding="utf-8") as file:
        page = file.read().replace("\\-", "-")
    folder = re.search(r"(?m)^\.I (\S+/share/doc/wulthrein)$", page)
    tally.same("the manual page tells the folder", folder and folder[1], os.path.join(prefix, "share", "doc", "wulthrein"))
    names = sorted(set(re.findall(r"(?:docs|samples|python)/[\w./-]*\w", page)))
    tally.check("pages and samples are named", {"docs/FORMAT.md", "docs/PLANNERS-DAY.md", "python/README.md", "samples/jetty/jetty.net"} <= set(names), names)
    for name in names:
        tally.check(f"installed: {name}", os.path.exists(os.path.join(folder[1], name)))
    examples = page.split(".SH EXAMPLES\n.nf\n")[1].split(".fi")[0].splitlines()
    tally.check("examples", len(examples) > 5)
    with tempfile.TemporaryDirectory() as work:
        for name in os.listdir(folder[1]):
            os.symlink(os.path.join(folder[1], name), os.path.join(work, name))
        for example in examples:
            done = subprocess.run([os.path.join(prefix, "bin", "lineup"), *shlex.split(example)[1:]], cwd=work, capture_output=True, text=True, check=False)
            tally.same(f"installed: {example}", (done.returncode, done.stderr), (1 if example.startswith("lineup diff") else 0, ""))


def module(tally, prefix):
    """The package, with the shared object beside its programs."""
    program = "import lineup; print(lineup.over_library(), lineup.check('samples/jetty/jetty.net', 'samples/jetty/may.sheet'), lineup.__file__)"
    environment = {**os.environ, "PYTHONPATH": os.path.join(prefix, "lib", "wulthrein", "python")}
    done = subprocess.run([sys.executable, "-c", program], cwd=os.path.join(prefix, "share", "doc", "wulthrein"), env=environment, capture_output=True, text=True, check=False)
    tally.same("installed: import lineup", done.stdout.split(), ["True", "accepted", os.path.join(prefix, "lib", "wulthrein", "python", "lineup", "__init__.py")])
