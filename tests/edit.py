# What a must-fail edit says: the lines that it takes away and puts in their place, file by file.
import glob
import os


def edits():
    return sorted(glob.glob('crates/*/must-fail/*.edit'))


def crate(edit):
    return edit.split('/')[1]


def name(edit):
    return os.path.basename(edit)[: -len('.edit')]


def said(edit, kind):
    """What the comments of an edit say of a kind: the mistakes that it makes, or the contracts that it tries."""
    mark = f'# {kind}: '
    with open(edit, encoding='utf-8') as file:
        return [line[len(mark) :].strip() for line in file if line.startswith(mark)]


def steps(edit):
    """What an edit does, in order: of each step the file, the text that goes and the text that comes. As `rt` reads it."""
    path = old = ''
    with open(edit, encoding='utf-8') as file:
        for line in file.read().splitlines():
            kind, _, text = line.partition(':')
            text = text[1:] if text.startswith(' ') else text
            if kind == 'file':
                path = text
            elif kind == 'old':
                old = text
            elif kind == 'new':
                yield path, old, text
                old = ''


def once(path, old):
    """A file's text, if there is one and this stands in it once."""
    if not old or not os.path.isfile(path):
        return None
    with open(path, encoding='utf-8') as file:
        text = file.read()
    return text if text.count(old) == 1 else None


def make(edit, folder):
    """Makes an edit in a crate's folder. Whether it could: each text that goes has to stand in its file once."""
    made = False
    for path, old, new in steps(edit):
        path = os.path.join(folder, path)
        text = once(path, old)
        if text is None:
            return False
        with open(path, 'w', encoding='utf-8') as file:
            file.write(text.replace(old, new))
        made = True
    return made
