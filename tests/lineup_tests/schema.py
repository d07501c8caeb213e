"""docs/lineup.schema.json: what every command prints with --json fits its definition, every definition is met, and what does not fit is told."""
import copy
import json
import os
import re
import shutil
import tempfile

from called import lineup
from lineup import commands
from lineup.home import HOME

# commands by the definition that their JSON has to fit, in a folder with the samples and a few texts
CASES = {
    "check": ["check J", "check J/jetty.net", "check J/jetty.net J/may.sheet", "check --all J", "check J/jetty.net J/may.sheet J/june.sheet J/export.sheet"],
    "spread": ["spread J", "spread samples/15-wrong-landing"],
    "compare": ["compare J/jetty.net J/may.sheet J/june.sheet", "compare J/jetty.net J/may.sheet J"],
    "diff": ["diff J/jetty.net J/may.sheet J/june.sheet", "diff J/jetty.net J/may.sheet J", "diff --all J/jetty.net J/may.sheet J/june.sheet", "diff --all J/jetty.net J/may.sheet J"],
    "short": ["short J/jetty.net J/june.sheet", "short J/jetty.net J/june.sheet --diff", "short J -o short.sheet"],
    "bounds": ["bounds J", "bounds J/jetty.net J/may.sheet"],
    "run": ["run J berth line-up", "run J"],
    "replay": ["replay J/jetty.net J/may.sheet J/may.log", "replay J/jetty.net J/may.sheet none.log"],
    "mend": ["mend J/jetty.net J/export.sheet", "mend J/jetty.net J/export.sheet --diff", "mend J -o mended.sheet"],
    "compose": ["compose two/jetties.net two/east.sheet two/west.sheet"],
    "trim": ["trim J/jetty.net samples/edited/edited.sheet", "trim J --diff", "trim J"],
    "times": ["times JT/jetty.net JT/july.sheet JT/july.times", "times JT/jetty.net JT/july.sheet JT/july.times -o july.svg"],
    "find": ["find J tank1 >= 2", "find J header = 1", "find J tank1 >= 3"],
    "words": ["words J", "words J/jetty.net", "words J/jetty.net J/may.sheet -o w", "words J/jetty.net J/may.sheet --binary -o w"],
    "names": ["names J", "names J/jetty.net", "names J --pnml", "names J --pnml -o j", "names J -o j"],
    "draw": ["draw J", "draw J/jetty.net", "draw samples/15-wrong-landing", "draw J -o j.svg"],
    "page": ["page J", "page J -o j.html", "page J/jetty.net J/export.sheet", "page J/jetty.net J/may.sheet J/may.log"],
    "play": ["play J --random 9 --seed 1", "play J --random 0", "play J --random 3 --seed 2 -o j.log"],
    "explain": ["explain 15", "explain"],
    "help": ["help 15", "help", "help check"],
    "completion": ["completion bash", "completion zsh"],
    "trouble": ["check no.net", "check slip.net", "run J nothing", "check", "compose J/jetty.net tail.bin"],
}
REFUSED = ["check", "bounds", "short", "mend", "trim", "words", "names"]  # of a folder
ANSWERED = [
    "check J/jetty.net J/export.sheet", "check --all J/jetty.net J/export.sheet", "diff --all J/jetty.net J/may.sheet J/export.sheet", "compare J/jetty.net J/may.sheet J/export.sheet", "run J rework", "replay J/jetty.net J/june.sheet J/may.log",
    "replay J/jetty.net J/may.sheet empty.log", "mend two/jetties.net hoard.sheet", "compose two/jetties.net two/east.sheet two/hose.sheet", "compose two/jetties.net two/east.sheet", "times J/jetty.net J/may.sheet may.times",
    "times JT/jetty.net JT/july.sheet late.times", "check --all over.net", "replay J/jetty.net J/may.sheet log.txt",
]
FILES = {
    "none.log": "log none\n", "empty.log": "", "slip.net": "pl a\ntr s a*x\n", "over.net": "pl a (2) <= 1\ntr s -> a\n", "hoard.sheet": "n:\n  ship -> n\n  barge -> n\n", "tail.bin": "\0\0\0\0\1",
    "late.times": "berth 2 1\nline-up 0 0\npasses 0 0\nfails 0 0\nload 0 0\nrework 0 0\nmended 0 0\nslops 0 0\n", "log.txt": "1 9 0",
    "may.times": "berth 1 1\nline-up 1 1\npasses 1 1\nfails 1 1\nload 1 1\nrework 1 1\n",
}
# what a refusal is about, by its command
KEYS = {
    "check samples/04-net-weight": {"number": 4, "node": None, "transition": "t0", "target": None, "place": "p0", "entry": 1, "counts": [{"place": "p0", "is": 0, "relation": ">=", "needed": 1}]},
    "check samples/03-net-order": {"number": 3, "transition": "t1", "place": "p0", "entry": 1, "counts": []},
    "check samples/08-sheet-order": {"number": 8, "node": "n0", "transition": "t0", "place": None, "entry": 1},
    "check samples/10-wrong-start": {"number": 10, "node": "n0", "place": "p0", "entry": None},
    "check samples/12-torn-choice": {"number": 12, "node": "n1", "transition": None, "counts": []},
    "check samples/15-wrong-landing": {"number": 15, "node": "n0", "transition": "t0", "target": "n1", "place": "p0", "entry": 0, "counts": [{"place": "p0", "is": 0, "relation": "=", "needed": 1}]},
    "check samples/14-starved-arc": {"number": 14, "transition": "t1", "place": "p0"},
    "check samples/26-overfull-start": {"number": 26, "node": None, "place": "p0", "entry": None},
    "check samples/27-over-capacity": {"number": 27, "place": "p0"},
    "check J/jetty.net J/export.sheet": {"number": 9, "node": "sampled", "transition": None, "place": "header", "entry": 14, "counts": [{"place": "header", "is": 0, "relation": ">=", "needed": 1}]},
    "run J berth rework": {"number": 20, "node": "berthed", "transition": "rework", "target": None, "place": None},
    "replay J/jetty.net J/june.sheet J/may.log": {"number": 20, "node": "off", "transition": "rework"},
    "mend two/jetties.net hoard.sheet": {"number": 25, "node": "n", "transition": "ship", "target": "n", "place": "east", "counts": [{"place": "east", "is": 0, "relation": "=", "needed": 1}]},
    "compose two/jetties.net two/east.sheet two/hose.sheet": {"number": 30, "node": "berthed", "transition": "line-up", "target": "sampled", "place": "header", "entry": None, "counts": [{"place": "header", "is": 0, "relation": ">=", "needed": 1}]},
    "compose two/jetties.net two/east.sheet": {"number": 28, "node": None, "counts": []},
    "times J/jetty.net J/may.sheet may.times": {"number": 33, "node": "sampled"},
    "times JT/jetty.net JT/july.sheet late.times": {"number": 32, "transition": "berth"},
}


def run(tally):
    with open(os.path.join(HOME, "docs", "lineup.schema.json"), encoding="utf-8") as file:
        schema = json.load(file)
    met = set()
    with tempfile.TemporaryDirectory() as folder:
        laid(folder)
        tally.same("every command has a definition and is tried", [name for name in commands.NAMES if name not in schema["$defs"] or name not in CASES], [])
        for name, tried in CASES.items():
            for command in tried:
                fits(tally, folder, schema, met, name, command)
        for command in ANSWERED + [f"{name} samples/{sample}" for name in REFUSED for sample in sorted(os.listdir(os.path.join(HOME, "samples"))) if sample[:2].isdigit()]:
            if json_of(folder, command).get("accepted") is False and not command.startswith(("spread", "draw")):
                fits(tally, folder, schema, met, "refused", command)
        for command, should in KEYS.items():
            refusal = json_of(folder, command)["refusal"]
            tally.same(f"{command}: what it is about", {key: refusal[key] for key in should}, should)
        strict(tally, folder, schema)
    tally.same("definitions that nothing met", sorted(set(schema["$defs"]) - met), [])


def laid(folder):
    shutil.copytree(os.path.join(HOME, "samples"), os.path.join(folder, "samples"))
    for name, target in (("J", "jetty"), ("JT", "jetty-times"), ("two", "two-jetties")):
        os.symlink(os.path.join("samples", target), os.path.join(folder, name))
    for name, text in FILES.items():
        with open(os.path.join(folder, name), "w", encoding="utf-8") as file:
            file.write(text)


def json_of(folder, command):
    return json.loads(lineup(folder, *command.split(), "--json")[1])


def fits(tally, folder, schema, met, name, command):
    """A command's object fits its own definition, and the whole schema."""
    found = json_of(folder, command)
    tally.same(f"{command} as {name}", faults(schema, {"$ref": f"#/$defs/{name}"}, found, met), [])
    tally.same(f"{command} as any", faults(schema, schema, found, set()), [])


def strict(tally, folder, schema):
    """An object that lacks a key, has another one, or has another type for one, does not fit."""
    for name, tried in CASES.items():
        found = json_of(folder, tried[0])
        for key in found:
            for what, changed in (("missing", {k: v for k, v in found.items() if k != key}), ("of another type", {**found, key: {"other": [None]}})):
                optional = what == "missing" and faults(schema, {"$ref": f"#/$defs/{name}"}, changed, set()) == []
                tally.check(f"{tried[0]}: {key} {what}", not optional or key in ("sheet", "written"), changed.keys())
        tally.check(f"{tried[0]}: a key too many", faults(schema, {"$ref": f"#/$defs/{name}"}, {**found, "more": 1}, set()))
    refusal = json_of(folder, "check samples/15-wrong-landing")
    for path, value in ((("number",), 0), (("position", "kind"), "arc"), (("counts", 0, "relation"), "<"), (("line",), 0), (("why",), []), (("node",), 1)):
        changed = copy.deepcopy(refusal)
        inner = changed["refusal"]
        for step in path[:-1]:
            inner = inner[step]
        inner[path[-1]] = value
        tally.check(f"a refusal with {path} {value!r}", faults(schema, {"$ref": "#/$defs/refused"}, changed, set()))
    refusal["core"] = ["answer"]
    tally.check("a core that is none", faults(schema, {"$ref": "#/$defs/refused"}, refusal, set()))


# ---- a small validator, of the words that the schema uses

TYPES = {"object": dict, "array": list, "string": str, "boolean": bool, "null": type(None)}
KNOWN = {"$schema", "title", "description", "$defs", "$ref", "anyOf", "type", "properties", "required", "additionalProperties", "items", "minItems", "maxItems", "minLength", "minimum", "maximum", "pattern", "enum", "const"}


def faults(schema, rule, found, met, at="$"):
    """Where an object does not fit a rule: a sentence each. `met` gathers the definitions that were used."""
    if set(rule) - KNOWN:
        return [f"{at}: the validator does not know {sorted(set(rule) - KNOWN)}"]
    if "$ref" in rule:
        name = rule["$ref"].rpartition("/")[2]
        met.add(name)
        return faults(schema, schema["$defs"][name], found, met, at)
    if "anyOf" in rule:
        ways = []
        for way in rule["anyOf"]:
            used = set()
            ways.append(faults(schema, way, found, used, at))
            if not ways[-1]:
                met |= used
                return []
        return [f"{at}: fits none of {len(ways)}: {min(ways, key=len)[:2]}"]
    return [f"{at}: {fault}" for fault in plain(rule, found)] + deeper(schema, rule, found, met, at)


def plain(rule, found):
    if "const" in rule and found is not rule["const"]:
        yield f"is not {rule['const']}"
    if "enum" in rule and found not in rule["enum"]:
        yield f"is none of {rule['enum']}"
    if rule.get("type") == "integer" and (not isinstance(found, int) or isinstance(found, bool)) or "type" in rule and rule["type"] != "integer" and not isinstance(found, TYPES[rule["type"]]):
        yield f"is no {rule['type']}"
        return
    sizes = [("minimum", lambda a, b: a >= b, found), ("maximum", lambda a, b: a <= b, found)] if rule.get("type") == "integer" else []
    sizes += [(word, test, len(found)) for word, test in (("minItems", lambda a, b: a >= b), ("maxItems", lambda a, b: a <= b), ("minLength", lambda a, b: a >= b)) if word in rule]
    yield from (f"{size} is against {word}" for word, test, size in sizes if word in rule and not test(size, rule[word]))
    if "pattern" in rule and not re.search(rule["pattern"], found):
        yield f"does not match {rule['pattern']}"
    yield from (f"lacks {key}" for key in rule.get("required", ()) if key not in found)


def deeper(schema, rule, found, met, at):
    """What is inside an object or a list."""
    result = []
    if isinstance(found, list) and "items" in rule:
        for i, item in enumerate(found):
            result += faults(schema, rule["items"], item, met, f"{at}[{i}]")
    if isinstance(found, dict) and rule.get("type") == "object":
        for key, value in found.items():
            inner = rule.get("properties", {}).get(key, rule.get("additionalProperties", True))
            if inner is False:
                result.append(f"{at}: {key} is not known")
            elif inner is not True:
                result += faults(schema, inner, value, met, f"{at}.{key}")
    return result
