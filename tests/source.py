# What the guards read of a file of Rattle (.rt) or antt: its text without comments, its `use` lines, a function's clauses.
import glob
import os
import re
import sys

os.chdir(os.path.join(os.path.dirname(os.path.abspath(__file__)), '..'))

COMMENT = {'.antt': re.compile(r'(?<![^\s(){}.;,@])--[^\n]*|\{-.*?-\}', re.S), '.rt': re.compile(r'//[^\n]*|/\*.*?\*/', re.S)}
USE = re.compile(r'^(?P<mark>(?:unfoldable )?pub |ghost )?use (?P<path>[^\s{;]+?)(?:(?:\.|::)\{(?P<items>[^}]*)\}|(?: as (?P<name>[^\s;]+))?);?[ ]*$', re.M)
# a clause of several has a name, and one with a star holds an assertion; a `ghost` value of the clauses stands among them
CLAUSE = re.compile(r'\b(?:(requires|ensures)\*?(?:\s+\w+)?|(ghost)\s+\w+\s*:)\s*$')
GHOST = re.compile(r'\bghost\s+\w+\s*[:=]\s*(?=\{)')


def blank(text):
    """As many blanks and line ends."""
    return re.sub(r'[^\n]', ' ', text)


def sources(*suffixes):
    """The files of the crates with these suffixes, each with its text, in which blanks stand for comments. What is made of a crate, out/, is no source."""
    for path in sorted(path for part in ('src', 'specs', 'proofs') for path in glob.glob(f'crates/*/{part}/**/*', recursive=True)):
        suffix = os.path.splitext(path)[1]
        if suffix in suffixes and os.path.isfile(path):
            with open(path, encoding='utf-8') as file:
                yield path, COMMENT[suffix].sub(lambda comment: blank(comment[0]), file.read())


def last(path):
    """The name at the end of a path."""
    return re.split(r'\.|::', path)[-1]


def brought(use):
    """What a `use` line brings in: of each item its own text, its name in the file and its path. A glob names nothing."""
    if use['path'].endswith('*'):
        return []
    if use['items'] is None:
        return [(None, use['name'] or last(use['path']), use['path'])]
    items = [item.strip() for item in use['items'].split(',') if item.strip()]
    parts = [(item, *item.partition(' as ')[::2]) for item in items]
    return [(item, name.strip() or last(path), f"{use['path']}.{path}") for item, path, name in parts]


def behind(text, opening):
    """The place behind the block that opens here."""
    depth = 0
    for at in range(opening, len(text)):
        depth += {'{': 1, '}': -1}.get(text[at], 0)
        if depth == 0:
            return at + 1
    return len(text)


def ends(text):
    """Whether a signature ends in a text, as one without a body does: at a semicolon that is not of an array."""
    while (outer := re.sub(r'\[[^\[\]]*\]', '', text)) != text:
        text = outer
    return ';' in text


def clauses(text, at):
    """The clauses between a signature and its body, the first block that no clause opens, or its end: of each its kind and its text."""
    found = []
    opening = text.find('{', at)
    while opening >= 0 and not ends(text[at:opening]) and (clause := CLAUSE.search(text[at:opening])):
        at = behind(text, opening)
        found.append((clause[1] or clause[2], text[opening:at]))
        opening = text.find('{', at)
    return found


def ghosts(text):
    """The ghost members and fields, each as its block: what the check alone reads beside the clauses."""
    return [text[found.end() : behind(text, found.end())] for found in GHOST.finditer(text)]


def tell(passed, faults):
    """The last lines of a guard: what it found, and its count. One that found nothing to look at has failed."""
    for fault in faults if passed or faults else ['nothing was found to look at']:
        print(fault)
    failed = len(faults) or not passed
    print(f'{passed} passed, {int(failed)} failed')
    sys.exit(failed > 0)
