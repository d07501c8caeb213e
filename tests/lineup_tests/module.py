"""The module for Python programs: the same answers from the library and from the program, typed; what it takes and what it raises; its pages; its times."""
import ast
import contextlib
import inspect
import os
import random
import re
import subprocess
import sys
import tempfile
import threading
import time

import generated
import lineup
from called import lineup as command
from lineup import answers, core, home, interface, library, logfile, timesfile, words
from lineup.home import HOME
from lineup.wordfile import packed

JETTY, TWO, TIMED = (os.path.join(HOME, "samples", name) for name in ("jetty", "two-jetties", "jetty-times"))
NET, MAY, JUNE, EXPORT, LOG = (os.path.join(JETTY, name) for name in ("jetty.net", "may.sheet", "june.sheet", "export.sheet", "may.log"))
TIMES = [os.path.join(TIMED, name) for name in ("jetty.net", "july.sheet", "july.times")]


def run(tally):
    built(tally)
    same(tally)
    commands(tally)
    for on in (False, True):
        with asking(on):
            calls(tally, "library" if on else "program")
            forms(tally)
            many(tally)
    in_a_loop(tally)
    with asking(True):
        threads(tally)
    refusals(tally)
    mistakes(tally)
    surface(tally)
    missing(tally)
    pages(tally)


def built(tally):
    """The shared object, with the archive's four functions and nothing to be filled in at the start."""
    done = subprocess.run(["make", "-s", "shared"], cwd=HOME, capture_output=True, text=True, check=False)
    tally.check("make shared", done.returncode == 0 and home.library(), done.stdout[-300:] + done.stderr[-300:])
    dynamic = subprocess.run(["readelf", "-dW", home.library()], capture_output=True, text=True, check=True).stdout
    tally.check("nothing of its code is filled in at the start", "TEXTREL" not in dynamic and "libc.so" in dynamic, dynamic)
    moved = subprocess.run(["readelf", "-rW", os.path.join(HOME, "target", "staticlib", "libwulthrein.a")], capture_output=True, text=True, check=True).stdout
    tally.same("the archive's code is position independent", sorted(set(re.findall(r"R_X86_64_\w+", moved))), ["R_X86_64_PC32", "R_X86_64_PLT32"])
    library.loaded.cache_clear()


@contextlib.contextmanager
def asking(on):
    """The library, or the program alone."""
    before = library.wanted
    library.wanted = on
    try:
        yield
    finally:
        library.wanted = before


# ---- both ways


def same(tally):
    """The library's lines are the program's, on damaged nets and sheets, lists of firings, and single firings."""
    random.seed(26)
    cases, numbers = [], set()
    for net, sheet, record in generated.damaged(13, 4000):
        both = net.words, sheet.words
        cases += [core.check(*both), core.run(*both, record if record is not None else [0])]
        cases += [core.short(*both)] if len(sheet.words) < 1500 or random.random() < 0.2 else []  # the largest take most of the time
        cases += [core.fire(*both, random.choice([0, 1, random.randrange(130), 4_294_967_295]), random.choice([0, 1, random.randrange(34)])) for _ in range(2)]
    by_library, by_program = core.by_library(cases), core.by_program(cases)
    for i, (call, *lines) in enumerate(zip(cases, by_library, by_program)):
        one, other = map(call.read, lines)
        tally.same(f"call {i}, {type(one).__name__}", (repr(one), one.fault()), (repr(other), other.fault()))
        if call.operation != 5:
            tally.same(f"call {i}, the line", one.whole, other.whole)
        numbers.add((call.operation, one.number))
    for operation, expected in ((2, [*range(18), 26, 27]), (6, [0, 20]), (7, [0]), (5, [0, 18, 20])):
        tally.check(f"operation {operation} meets {expected}", numbers >= {(operation, number) for number in expected}, sorted(numbers))
    tally.check("many calls", len(cases) > 5000, len(cases))


def commands(tally):
    """The command line says the same either way."""
    for line in (f"check {NET} {MAY}", f"check {NET} {MAY} {JUNE} {EXPORT}", f"run {NET} {MAY} berth line-up fails", f"run {NET} {MAY} load", f"short {NET} {JUNE}", f"diff {NET} {MAY} {JUNE}", f"run {NET} {EXPORT} berth --json"):
        found = []
        for on in (False, True):
            with asking(on):
                found.append(command(JETTY, *line.split()))
        tally.same(f"{line}, either way", *found)


# ---- what the calls answer


def calls(tally, how):
    tally.same(f"{how}: over", lineup.over_library(), how == "library")
    net = lineup.read_net(NET)
    may, june = lineup.read_sheet(MAY, net), lineup.read_sheet(JUNE, net)
    found = {
        "check_net": (lineup.check_net(net), True, {}),
        "check": (lineup.check(net, may), True, {"nodes": 9, "arcs": 11, "awaits": 2}),
        "check, refused": (lineup.check(net, EXPORT), False, {"number": 9, "kind": "entry", "position": 14, "nodes": 0, "word": "sheet value"}),
        "bounds": (lineup.bounds(net, may), True, {"bounds": [1, 1, 1, 2, 1]}),
        "bounds, refused": (lineup.bounds(net, EXPORT), False, {"bounds": []}),
        "fire": (lineup.fire(net, may, 0, "berth"), True, {"node": 1}),
        "fire, not offered": (lineup.fire(net, may, 0, 1), False, {"number": 20, "node": None}),
        "fire, no node": (lineup.fire(net, may, 9, 1), False, {"number": 18, "node": None}),
        "fire, refused": (lineup.fire(net, EXPORT, 0, 0), False, {"number": 9, "kind": "entry", "position": 14, "node": None}),
        "run": (lineup.run(net, may, ["berth", "line-up", 3]), True, {"fired": 3, "node": 4, "entry": 3, "counts": [0, 1, 0, 0, 1]}),
        "run, nothing": (lineup.run(net, may, []), True, {"fired": 0, "node": 0, "entry": None, "counts": [0, 1, 0, 0, 0]}),
        "run, refused": (lineup.run(net, may, ["berth", "berth"]), False, {"number": 20, "kind": "record", "position": 1, "fired": 0, "entry": None, "counts": []}),
        "replay": (lineup.replay(net, may, LOG), True, {"taken": [2, 3, 3, 2, 1], "put": [2, 3, 3, 2, 1], "entry": 9}),
        "replay, refused": (lineup.replay(net, june, [1, 0, 5]), False, {"number": 24, "kind": "record", "position": 0, "taken": [], "put": []}),
        "short_form": (lineup.short_form([1, 2, 2, 1, 2, 1, 1], [4, 6, 0, 3, 4, 7, 9, 11, 1, 2, 3, 0, 1, 1]), True, {"words": [2, 3, 0, 3, 5, 1, 0, 1]}),
        "short_form, refused": (lineup.short_form(net, EXPORT), False, {"words": []}),
        "compare, the same": (lineup.compare(net, may, JETTY), True, {"same": True, "sheet": 0}),
        "compare, different": (lineup.compare(net, may, june), False, {"number": 0, "same": False, "sheet": 0}),
        "compare, refused": (lineup.compare(net, may, EXPORT), False, {"number": 9, "same": False, "sheet": 2, "forms": []}),
        "mend": (lineup.mend(net, EXPORT), True, {"words": words.sheet_words(net, may), "changes": [(3, 2, 0), (5, 3, 1), (6, 3, 1), (7, 3, 2), (8, 3, 1)]}),
        "mend, nothing": (lineup.mend(net, may), True, {"changes": []}),
        "mend, refused": (lineup.mend([1, 2, 2, 1, 2, 1, 1], [1, 1, 0, 0]), False, {"number": 25, "words": [], "changes": []}),
        "trim": (lineup.trim(net, os.path.join(HOME, "samples", "edited", "edited.sheet")), True, {"kept": [0, 1, 2, 3, 4, 7, 8, 9, 10]}),
        "trim, refused": (lineup.trim(net, EXPORT), False, {"words": [], "kept": []}),
        "compose": (lineup.compose(*(os.path.join(TWO, name) for name in ("jetties.net", "east.sheet", "west.sheet"))), True, {"sheet": 0}),
        "compose, refused": (lineup.compose(net), False, {"number": 28, "sheet": 0, "words": []}),
        "times": (lineup.times(*TIMES), True, {"times": [(3900, 29700), (8100, 44100)]}),
        "times, refused": (lineup.times(*TIMES[:2], [1, 2]), False, {"number": 32, "times": []}),
    }
    for what, (answer, accepted, should) in found.items():
        tally.same(f"{how}: {what}", (bool(answer), {name: getattr(answer, name) for name in should}), (accepted, should))
        tally.holds(f"{how}: {what}, as it is shown", repr(answer), type(answer).__name__ + f"(number={answer.number}, kind=", *(f"{name}={getattr(answer, name)!r}" for name in answer.fields))
    tally.same(f"{how}: composed words", len(found["compose"][0].words), 88)
    tally.same(f"{how}: compared forms", [len(form) for form in found["compare, the same"][0].forms], [60, 60])


class Whole:
    """A whole number of another kind, as those of arrays are."""

    def __init__(self, value):
        self.value = value

    def __index__(self):
        return self.value


def forms(tally):
    """What a call may be handed: files, folders, objects, texts of them, words; and back."""
    net, may = lineup.read_net(NET), lineup.read_sheet(MAY, NET)
    both = words.net_words(net), words.sheet_words(net, may)
    should = repr(lineup.check(net, may))
    class Path(os.PathLike):
        def __fspath__(self):
            return NET

    for one, other in ((NET, MAY), (Path(), may), (JETTY, JETTY), (both[0], both[1]), (tuple(both[0]), iter(both[1])), tuple(map(packed, both)), (bytearray(packed(both[0])), may), (memoryview(packed(both[0])), may), ([True if word == 1 else word for word in both[0]], [Whole(word) for word in both[1]]), (NET, both[1]), (both[0], may), (lineup.parse_net(lineup.text_of(net)), lineup.parse_sheet(lineup.text_of(net, may), net))):
        tally.same(f"check of {type(one).__name__} and {type(other).__name__}", repr(lineup.check(one, other)), should)
    mended = lineup.sheet_of(lineup.mend(net, EXPORT).words, net, may.nodes)
    tally.same("a mended sheet as a text", lineup.text_of(net, mended), lineup.text_of(net, may).replace("sheet may\n", ""))
    tally.same("nodes without names", lineup.sheet_of(both[1], both[0]).nodes, [f"n{i}" for i in range(9)])
    tally.same("names of words", lineup.run(*both, ["t0", "t1"]).node, 2)
    log = logfile.read("may.log", "berth -> berthed\n", net, may)
    for given in (log, [1, 0, 1]):
        tally.same(f"replay of {type(given).__name__}", lineup.replay(net, may, given).put, [1, 0, 0, 0, 0])
    over, sheet = lineup.read_net(TIMES[0]), TIMES[1]
    with open(TIMES[2], encoding="utf-8") as file:
        durations = timesfile.read("july.times", file.read(), over)
    for given in (durations, words.duration_words(durations)):
        tally.same(f"times by {type(given).__name__}", lineup.times(over, sheet, given).times, [(3900, 29700), (8100, 44100)])
    with tempfile.TemporaryDirectory() as folder:
        for name, data in (("net.bin", b"\1\0\0\0\1"), ("sheet.bin", b"\1\0\0\0\1\0")):
            with open(os.path.join(folder, name), "wb") as file:
                file.write(data)
        tally.same("bytes that are no whole words", [lineup.check(*given).number for given in ((folder, folder), (NET, os.path.join(folder, "sheet.bin")))], [1, 6])
        tally.same("in any call", [call(NET, os.path.join(folder, "sheet.bin"), *more).number for call, more in ((lineup.run, [[0]]), (lineup.mend, []), (lineup.short_form, []))], [6, 6, 6])
        tally.same("in a net alone", lineup.check_net(folder).number, 1)
        tally.same("handed over as they are", (lineup.check(packed(both[0]) + b"\0", may).number, lineup.check(net, packed(both[1]) + b"\0").number), (1, 6))
        raised(tally, "in a log", lineup.Trouble, "the log given: 5 bytes are no whole words", lambda: lineup.replay(net, may, b"\1\0\0\0\0"))
        tally.same("among many", [answer.number for answer in lineup.check_all(NET, [MAY, os.path.join(folder, "sheet.bin"), JUNE])], [0, 6, 0])
        raised(tally, "bytes that are no whole words, in a comparison", lineup.Trouble, "no whole words", lambda: lineup.compare(NET, MAY, os.path.join(folder, "sheet.bin")))


def many(tally):
    found = lineup.check_all(NET, [MAY, EXPORT, JUNE, lineup.read_sheet(MAY, NET), [0]])
    tally.same("check_all", [(answer.number, answer.nodes) for answer in found], [(0, 9), (9, 0), (0, 12), (0, 9), (6, 0)])
    tally.same("check_all of none", lineup.check_all(NET, []), [])


def in_a_loop(tally):
    """A thousand checks take well under a second: by the library one after the other, by the program in one start."""
    net, may = lineup.read_net(NET), lineup.read_sheet(MAY, NET)
    both = words.net_words(net), words.sheet_words(net, may)
    with asking(True):
        for what, one, other in (("objects", net, may), ("words", *both)):
            seconds = best(lambda: [lineup.check(one, other) for _ in range(1000)])
            tally.check(f"1,000 checks by the library, of {what}: {seconds:.2f} s", seconds < 0.7, seconds)
    with asking(False):
        seconds = best(lambda: lineup.check_all(net, [both[1]] * 1000))
        tally.check(f"1,000 checks by one start of the program: {seconds:.2f} s", seconds < 0.7, seconds)


def best(work):
    times = []
    for _ in range(3):
        start = time.perf_counter()
        work()
        times.append(time.perf_counter() - start)
    return min(times)


def threads(tally):
    """Eight threads at once, each with its own list of firings, answer what one does."""
    lists = [[0, 1, 2, 0, 1, 3, 5][: i % 8] for i in range(64)]
    should, found = [repr(lineup.run(NET, MAY, record)) for record in lists], [None] * 64

    def work(k):
        for i in range(k, 64, 8):
            found[i] = repr(lineup.run(NET, MAY, lists[i]))

    started = [threading.Thread(target=work, args=(k,)) for k in range(8)]
    for thread in started:
        thread.start()
    for thread in started:
        thread.join()
    tally.same("eight threads", found, should)


# ---- what goes wrong


def refusals(tally):
    answer = lineup.check(NET, EXPORT)
    tally.same("a refusal as text", str(answer), "refused, 9 sheet value, at entry 14")
    tally.holds("a refusal's meaning and remedy", answer.meaning + answer.remedy, "a count is 0 or more", "leave out a count of 0")
    tally.same("an accepted one as text", [str(lineup.check(NET, MAY)), lineup.check(NET, MAY).word], ["accepted", ""])
    tally.same("a comparison as text", [str(lineup.compare(NET, MAY, sheet)) for sheet in (MAY, JUNE, EXPORT)], ["same", "different", "refused, 9 sheet value, at entry 14"])
    told = lineup.why(NET, EXPORT)
    tally.same("why, as the command tells it", told, command(JETTY, "check", NET, EXPORT)[1].splitlines())
    net = lineup.read_net(NET)
    tally.same("why, of objects", lineup.why(net, lineup.read_sheet(EXPORT, net))[1:], told[1:])
    tally.same("why, of words", [line.strip() for line in lineup.why([1, 2, 2, 1, 2, 1, 1], [2, 2, 0, 5, 1, 1])][:2], ["the sheet given: refused, 11 dead end", "node n1 has no arrow"])
    tally.same("why, accepted", lineup.why(NET, MAY), [])
    tally.same("a fault without a position", str(lineup.check([1], [])), "refused, 1 ragged net")


def mistakes(tally):
    net = [1, 2, 2, 1, 2, 1, 1]
    for words_ in ([-1], [2**32], [2**70], [1.5], ["1"], [None]):
        raised(tally, f"the words {words_}", ValueError, "whole numbers from 0 to 4,294,967,295", lambda words_=words_: lineup.check(net, words_))
    raised(tally, "a negative node", ValueError, "whole numbers", lambda: lineup.fire(net, [1, 1, 0, 0], -1, 0))
    raised(tally, "a text as a list of firings", TypeError, "a list of transitions", lambda: lineup.run(NET, MAY, "berth"))
    raised(tally, "no such transition", ValueError, "no transition 'bert': the net has 'berth', 'line-up'", lambda: lineup.run(NET, MAY, ["bert"]))
    raised(tally, "names of a net that cannot be read", ValueError, "none that can be read", lambda: lineup.run([1], [], ["berth"]))
    raised(tally, "no such file", lineup.Trouble, "no such file (did you mean 'jetty.net'?)", lambda: lineup.check(os.path.join(JETTY, "jety.net"), MAY))
    raised(tally, "a text that is wrong", lineup.Trouble, "text:1:1: ", lambda: lineup.parse_net("place a\n"))
    raised(tally, "no net", TypeError, "the net has to be a file's name, a Net or words, not NoneType", lambda: lineup.check(None, MAY))
    raised(tally, "net and sheet swapped", TypeError, "the net has to be a file's name, a Net or words, not Sheet", lambda: lineup.check(lineup.read_sheet(MAY, NET), lineup.read_net(NET)))
    raised(tally, "a number as a log", TypeError, "the log has to be a file's name, a Log or words, not int", lambda: lineup.replay(NET, MAY, 3))
    raised(tally, "words that are no sheet", lineup.Trouble, "cannot be read: a check tells why", lambda: lineup.sheet_of([2, 7], net))
    tally.same("a text sheet over a net that cannot be read", (lineup.check([1], MAY).number, lineup.check([1], lineup.read_sheet(MAY, NET)).number), (1, 1))


def raised(tally, what, kind, part, work):
    try:
        found = work()
    except (ValueError, TypeError, lineup.Trouble) as error:
        tally.check(what, isinstance(error, kind) and part in str(error), repr(error))
    else:
        tally.check(what, False, f"nothing is raised: {found!r}")


def surface(tally):
    """Every name has its help, and none is that of a module of the package, which would take its place; `import lineup` loads nothing of it."""
    modules = {name[:-3] for name in os.listdir(os.path.join(HOME, "python", "lineup")) if name.endswith(".py")}
    tally.same("names that are modules too", sorted(modules & set(lineup.__all__)), [])
    for name in lineup.__all__:
        tally.check(f"help for {name}", inspect.getdoc(getattr(lineup, name)) and (name[0].isupper() or getattr(lineup, name).__module__ == "lineup.interface"))
    for name in lineup.__all__:
        tally.check(f"{name} says what it answers", name[0].isupper() or inspect.signature(getattr(lineup, name)).return_annotation is not inspect.Signature.empty)
    defined = {name for name, found in vars(interface).items() if inspect.isfunction(found) and found.__module__ == "lineup.interface"}
    tally.same("functions that are not public", sorted(defined - set(lineup.__all__)), ["asked", "pair", "readable"])
    with open(os.path.join(HOME, "python", "README.md"), encoding="utf-8") as file:
        listed = set(re.findall(r"`(\w+)\(", file.read()))
    tally.same("names that python/README.md lists", sorted(set(lineup.__all__) - listed - {"Net", "Sheet", "Trouble"}), [])
    tally.same("dir", [name for name in lineup.__all__ if name not in dir(lineup)], [])
    program = "import sys, time\nbefore = set(sys.modules)\nstart = time.perf_counter()\nimport lineup\nprint(time.perf_counter() - start, sorted(set(sys.modules) - before))"
    seconds, loaded = python(program).stdout.split(" ", 1)
    tally.check(f"import lineup: {float(seconds):.4f} s", ast.literal_eval(loaded) == ["lineup"], loaded)
    with contextlib.suppress(AttributeError):
        lineup.nothing
        tally.check("no such name", False)


def missing(tally):
    """Without the shared object, or with one that is older than the source or cannot be loaded."""
    before = home.HOME
    with tempfile.TemporaryDirectory() as folder:
        try:
            home.HOME = folder
            tally.same("no shared object", home.library(), None)
            path = os.path.join(folder, "target", "shared", "libwulthrein.so")
            os.makedirs(os.path.dirname(path))
            with open(path, "w", encoding="utf-8") as file:
                file.write("no library")
            tally.same("of an installed copy", home.library(), path)
            os.makedirs(os.path.join(folder, "crates", "one", "src"))
            with open(os.path.join(folder, "crates.txt"), "w", encoding="utf-8") as file:
                file.write("")
            os.utime(path, (1, 1))
            tally.same("older than the source", home.library(), None)
            os.utime(path, (4_000_000_000, 4_000_000_000))
            raised(tally, "one that cannot be loaded", lineup.Trouble, "libwulthrein.so: cannot be loaded: ", library.loaded.__wrapped__)
        finally:
            home.HOME = before
    raised(tally, "a line that is none", lineup.Trouble, "the core's answer cannot be read", lambda: answers.Checked("answr 0"))


# ---- pages


def pages(tally):
    """The programs of the pages print what the pages say."""
    with open(os.path.join(HOME, "python", "README.md"), encoding="utf-8") as file:
        program, shown = re.search(r"(?ms)^```python\n(.*?)^```$.*?^```\n(.*?)^```$", file.read()).groups()
    done = python(program)
    tally.same("python/README.md", (done.stdout, done.stderr, done.returncode), (shown, "", 0))
    tally.same("python/README.md: ten lines", len([line for line in program.splitlines() if line]), 10)
    with open(os.path.join(HOME, "docs", "EMBEDDING.md"), encoding="utf-8") as file:
        section = file.read().split("\n## From Python\n")[1].split("\n## ")[0]
    program = re.search(r"(?ms)^```python\n(.*?)^```$", section)[1]
    tally.same("docs/EMBEDDING.md: ten lines", len([line for line in program.splitlines() if line]), 10)
    for events, status, output, errors in (("berth\nline-up\nfails\n", 0, "stands at node off\n", ""), ("berth\nload\n", 1, "", "node berthed: load is refused, 20 not offered\n")):
        done = python(program, NET, MAY, text=events)
        tally.same(f"docs/EMBEDDING.md: {events!r}", (done.returncode, done.stdout, done.stderr), (status, output, errors))
    done = python(program, NET, EXPORT, text="berth\n")
    tally.same("docs/EMBEDDING.md: a refused sheet", (done.returncode, done.stderr), (1, "node idle: berth is refused, 9 sheet value, at entry 14\n"))


def python(program, *arguments, text=""):
    environment = {**os.environ, "PYTHONPATH": os.path.join(HOME, "python"), "PYTHONDONTWRITEBYTECODE": "1"}
    return subprocess.run([sys.executable, "-c", program, *arguments], cwd=HOME, env=environment, input=text, capture_output=True, text=True, check=False)
