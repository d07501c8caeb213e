"""A picture as text for graphviz's dot."""
from lineup import looks
from lineup.looks import MORE, strongest

SHAPES = {"place": "ellipse", "transition": "box", "node": "box"}
FONT = 'fontname="sans-serif"'


def label(lines, left=False):
    """Lines as a label, in the middle or at the left."""
    escaped = [line.replace("\\", "\\\\").replace('"', '\\"') for line in lines]
    told = "".join(rf"{line}\l" for line in escaped) if left else r"\n".join(escaped)
    return f'label="{told}"'


def write(picture, down=False):
    lines = ["digraph lineup {", f"  rankdir={'TB' if down else 'LR'};", f'  node [{FONT} fontsize=11 style=filled color="{looks.BORDER}"];']
    lines.append(f'  edge [{FONT} fontsize=10 color="{looks.LINE}"];')
    told = ([picture.title] if picture.title else []) + [text for text, _ in picture.caption]
    if told:
        lines.append(f"  {label(told, left=True)}; labeljust=l; {FONT}; fontsize=10;")
    for i, box in enumerate(picture.boxes):
        lines.append(f"  b{i} [{attributes(box)}];")
        if box.kind == "node" and i in picture.roots:
            lines += [f"  start{i} [shape=point width=0.05];", f"  start{i} -> b{i};"]
    for arrow in picture.arrows:
        texts = [part.text() for part in arrow.labels]
        lines.append(f"  b{arrow.source} -> b{arrow.target} [{label(texts)}{stroke(strongest(part.mark for part in arrow.labels))}];")
    return "\n".join([*lines, "}"]) + "\n"


def stroke(mark):
    if not mark:
        return ""
    return f' color="{looks.line(mark)}" fontcolor="{looks.line(mark)}" penwidth=2' + (" style=dashed" if mark == MORE else "")


def attributes(box):
    tokens = [str(box.tokens)] if box.tokens else []
    found = [label([box.title, *tokens, *(part.text() for part in box.parts)]), f"shape={SHAPES[box.kind]}", f'fillcolor="{looks.fill(box)}"']
    if box.mark:
        found.append(f'color="{looks.border(box)}" fontcolor="{looks.border(box)}" penwidth=2' + (' style="filled,dashed"' if box.mark == MORE else ""))
    elif box.choice:
        found.append(f'color="{looks.border(box)}" penwidth=2')
    return " ".join(found + (["peripheries=2"] if box.waits and box.kind == "node" else []))
