# Programs of a few lines that a page shows: a fenced block of the language, and after it a fenced block `text` of all that it prints.
import os
import re

HOME = os.path.dirname(os.path.dirname(os.path.abspath(__file__)))
EMBEDDING = 'docs/EMBEDDING.md'
LINES = range(5, 17)  # to be read at a glance


def read(page):
    with open(os.path.join(HOME, page), encoding='utf-8') as file:
        return file.read()


def program(language, page=EMBEDDING):
    """A page's one program in a language, and what it prints."""
    found = re.findall(rf'^```{re.escape(language)}\n(.*?)^```\n.*?^```text\n(.*?)^```$', read(page), re.M | re.S)
    if len(found) != 1 or found[0][0].count('\n') not in LINES:
        raise SystemExit(f'{page} has {len(found)} programs in {language}, or one that is too long')
    return found[0]


def dependency(crate):
    """The line of a Cargo.toml that docs/EMBEDDING.md has, with the path of the crate in place of the one there."""
    lines = re.findall(r'^ *(wulthrein = \{ path = ")[^"]*(".*\})$', read(EMBEDDING), re.M)
    if len(lines) != 1:
        raise SystemExit(f'{EMBEDDING} has {len(lines)} lines of a dependency')
    return os.path.abspath(crate).join(lines[0])
