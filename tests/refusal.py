# What is told of a refused edit shows: a fact that fails in a proof, or only that the edit has another form than the proof, which shows nothing.
# An edit that the prover cannot read, or that leaves a proof another form than the code has, is refused whatever it says.
# To pass here does not show that the mistake is what was refused: a proof that opens a definition can refuse an edit that keeps the meaning.
# Two sources tell: `rt ci`, a line for each edit with the beginning of the first error, which ./test keeps; and tests/refused, all that the prover told.
import os
import re

from edit import crate, name

CI = 'target/log/ci'  # what `rt ci` told when ./test ran it last
TOLD = re.compile(r'^rt: must-fail (\w+/[\w.-]+)\.edit: (.*)$', re.M)
REFUSED = 'refused, as it must be'
# what rt itself says of a refusal that shows little: a proof cites what the edit took away; or the prover gave up at a limit of its own
LITTLE = re.compile(r' \((only because a proof file names what the edit took away|only by a limit of the prover)')
ERROR = re.compile(r'^(?:\./)?(src|specs|proofs)/\S+: error(?:\[.*?\])?: (.*(?:\n .*)*)', re.M)
UNPROVED = re.compile(r'^note: \S+ it is not proved that', re.M)  # of a goal that no proof of ours answers
# errors of form, by their first line
FORM = re.compile(
    r'has no `Need|has no field|this pattern needs|has type `𝕀`|is applied to an argument|explicit argument|is not in scope'
    r'|can be named from here|cannot continue|is missing at|is not closed|has no clause|no clause covers|structural call|^`(Inv|μ|invariant|decreases)-'
)
GONE = re.compile(r'has no `[^`]*` that can be named from here')
NEEDS = re.compile(r'expected type `tie\.Need-.* this has type `tie\.Need-')  # the edited code has other needs
TYPES = re.compile(r'expected type `([^`]*)`, but this has type `([^`]*)`')


def log(edit):
    """Where tests/refused leaves what the prover told of an edit."""
    return os.path.join(os.path.abspath('target'), 'must-fail', crate(edit), name(edit) + '.log')


def told():
    """What `rt ci` told of each edit, by its crate and name."""
    if not os.path.isfile(CI):
        return {}
    with open(CI, encoding='utf-8', errors='replace') as file:
        return dict(TOLD.findall(file.read()))


def is_function(text):
    """Whether a type takes an argument; a negation is a fact, and what stands in parentheses is no type of its own."""
    text = re.sub(r'→ (Prim\.)?⊥$', '', text)
    while (outer := re.sub(r'\([^()]*\)', '', text)) != text:
        text = outer
    return '→' in text


def is_form(message):
    first = re.sub(r'\n +(?=has no )', ' ', message).splitlines()[0]  # a long name may push the rest into the next line
    types = TYPES.search(first)
    arity = types and is_function(types[1]) != is_function(types[2])
    return FORM.search(first) or NEEDS.search(message) or arity


def shown(text):
    """Why what the prover told shows nothing, if so: its first error has to be in a proof, and not one of form. A goal has its name from the text of a condition or an
    index, and an edit of that takes the name away: then the first error beside those has to show something."""
    errors = [error for error in ERROR.finditer(text) if 'was not admitted' not in error[2]]  # no mere consequences
    error = next((error for error in errors if not GONE.search(error[2])), next(iter(errors), None))
    if error and (error[1] != 'proofs' or is_form(error[2])):
        return f'refused for its form: {error[2][:300]}'
    if not error and not UNPROVED.search(text):
        return 'tells no error'
    return None


def fault(log):
    """Why a log of tests/refused shows nothing, if so."""
    if not os.path.isfile(log):
        return 'is not there: the edit was not tried'
    with open(log, encoding='utf-8') as file:
        return shown(file.read())


def fault_of(edit, line):
    """Why what `rt ci` told of an edit shows nothing, if so."""
    if not line:
        return 'was not tried'
    if os.path.getmtime(edit) > os.path.getmtime(CI):
        return 'changed after it was tried'
    if not line.startswith(REFUSED):
        return line[:300]
    little = LITTLE.match(line[len(REFUSED) :])
    if little:
        return f'refused for its form: {line[len(REFUSED) + 2 :][:300]}' if 'proof file' in little[1] else 'tells no error'
    return shown(line[len(REFUSED) :].lstrip(': '))
