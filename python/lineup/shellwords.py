"""Names as words of a command line: what is printed can be pasted behind `lineup run`, as it is."""
import re
import shlex


def line(names, known):
    """Names of transitions as a shell takes them, where `known` are all there are."""
    return " ".join(word(name, known) for name in names)


def word(name, known):
    """One of them. What begins with '-' would be taken for an option, and so stands in braces, as in a sheet."""
    if name.startswith("-"):
        forms = ["{" + "".join("\\" + sign for sign in name[:i]) + escaped(name[i:]) + "}" for i in range(len(name) + 1)]
        name = next((form for form in forms if form not in known), forms[-1])
    return f'"{name}"' if "'" in name and not re.search(r'["$`\\!]', name) else shlex.quote(name)


def escaped(name):
    return re.sub(r"([{}\\])", r"\\\1", name)


def read(name, known):
    """The name that a word means: itself, or what it has in braces."""
    if name not in known and re.fullmatch(r"\{.*\}", name, re.DOTALL):
        inner = name[1:-1]
        return inner if inner in known else re.sub(r"\\(.)", r"\1", inner)
    return name
