"""Whether mending would make a refused sheet right: where its counts alone may be wrong, the core is asked."""
from lineup import core

OF_COUNTS = {9, 10, 14, 15, 27}


def advice(both, answer):
    """A sentence for a refusal that mending would do away with; none for another."""
    if answer.number not in OF_COUNTS or both.tail() or not both.sheet.model:
        return []
    found = core.ask(core.mend(*both.words()))[0]
    return [] if found.number else [f"the arrows are right: lineup mend puts the counts right (the core mends them: {found.line})"]
