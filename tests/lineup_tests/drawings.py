"""Pictures: in the SVG of the samples and of generated nets and sheets nothing lies over another thing and every arrow, loops too, is there."""
import os
import re
import shutil
import subprocess
import xml.etree.ElementTree as tree
from html import unescape

import generated
from lineup import dot, inputs, picture, svg
from lineup.home import HOME
from lineup.shapes import width


def run(tally):
    jetty = os.path.join(HOME, "samples", "jetty")
    for name, of_net in (("net.svg", True), ("schedule.svg", False)):
        with open(os.path.join(jetty, name), encoding="utf-8") as file:
            tally.same(f"samples/jetty/{name} is what lineup draws", file.read(), drawn(jetty, of_net))
    pictures = [(os.path.basename(folder), net, sheet) for folder, net, sheet in sample_pairs()]
    pictures += [(f"pair {i}", net, sheet) for i, (net, sheet, _) in enumerate(generated.siblings(9, 130)) if i % 6 == 0 or 25 <= len(sheet.model.nodes) <= 40]
    pictures = [(what, net, sheet) for what, net, sheet in pictures if len(sheet.model.nodes) <= 45]
    sizes = []
    for what, net, sheet in pictures:
        sizes.append(len(sheet.model.nodes))
        for kind, shown in (("net", picture.of_net(net.model)), ("sheet", picture.of_sheet(net.model, sheet.model))):
            for way, text in (("", svg.write(shown)), (", down", svg.write(shown, down=True))):
                apart(tally, f"{what}, {kind}{way}", text)
                complete(tally, f"{what}, {kind}{way}", shown, text)
            folded(tally, f"{what}, {kind}", shown)
            by_graphviz(tally, f"{what}, {kind}", dot.write(shown))
    tally.check("pictures of some 30 nodes", sum(25 <= size <= 40 for size in sizes) >= 3, sizes)


def drawn(folder, of_net):
    from lineup import core, pair
    from lineup.commands.draw import painted

    both = pair.load(folder, None)
    return svg.write(painted(both, of_net, both.ask(core.bounds)[0].out, None))


def sample_pairs():
    for folder in generated.samples():
        net = inputs.net(folder)
        sheet = inputs.sheet(folder, net)
        if net.model and sheet.model:
            yield folder, net, sheet


# ---- what an SVG shows


def shapes(text):
    """Boxes and labels as (left, top, right, bottom), and lines as lists of points."""
    boxes, labels, lines = [], [], []
    for element in tree.fromstring(text).iter():
        kind, at = element.tag.rpartition("}")[2], {key: element.get(key) for key in element.keys()}
        if kind == "rect" and "rx" in at:
            x, y, wide, high = (float(at[key]) for key in ("x", "y", "width", "height"))
            boxes.append((x, y, x + wide, y + high))
        elif kind == "circle":
            x, y, r = (float(at[key]) for key in ("cx", "cy", "r"))
            boxes.append((x - r, y - r, x + r, y + r, "round"))
        elif kind == "text":
            titles = [title.text for title in element.iter() if title.tag.endswith("title")]
            said = "".join(part for part in element.itertext() if part not in titles)
            size, x, y = float(at["font-size"]), float(at["x"]), float(at["y"])
            wide = width(said, size)
            left = x if at.get("text-anchor") == "start" else x - wide / 2
            labels.append((left, y - size * 0.8, left + wide, y + size * 0.2))
        elif kind == "path" and at.get("fill") == "none":
            lines.append(points(at["d"]))
    return boxes, labels, lines


def points(told):
    """Points along a path of straight and bent pieces."""
    found, here = [], None
    for command, numbers in re.findall(r"([MLC])([-\d. ]+)", told):
        values = [float(number) for number in numbers.split()]
        pairs = list(zip(values[::2], values[1::2]))
        if command == "C":
            a, b, c, d = here, *pairs
            for step in range(1, 12):
                t = step / 12
                found.append(tuple((1 - t) ** 3 * a[k] + 3 * (1 - t) ** 2 * t * b[k] + 3 * (1 - t) * t * t * c[k] + t**3 * d[k] for k in (0, 1)))
        here = pairs[-1]
        found.append(here)
    return found


def overlap(a, b, slack=0.5):
    return a[0] + slack < b[2] and b[0] + slack < a[2] and a[1] + slack < b[3] and b[1] + slack < a[3]


def inside(point, box, slack=1.0):
    if len(box) > 4:
        return (2 * point[0] - box[0] - box[2]) ** 2 + (2 * point[1] - box[1] - box[3]) ** 2 < (box[2] - box[0] - 2 * slack) ** 2
    return box[0] + slack < point[0] < box[2] - slack and box[1] + slack < point[1] < box[3] - slack


def contains(outer, inner):
    return outer[0] <= inner[0] and outer[1] <= inner[1] and inner[2] <= outer[2] and inner[3] <= outer[3] and len(outer) == len(inner)


def apart(tally, what, text):
    boxes, labels, lines = shapes(text)
    outer = [box for box in boxes if not any(box is not other and contains(other, box) for other in boxes)]
    free = [label for label in labels if not any(overlap(box, label) for box in outer)]
    bad = [(a, b) for i, a in enumerate(outer) for b in outer[:i] if overlap(a, b)]
    tally.check(f"{what}: boxes apart", not bad, bad[:2])
    bad = [(a, b) for i, a in enumerate(labels) for b in labels[:i] if overlap(a, b, 1.5)]
    tally.check(f"{what}: texts apart", not bad, bad[:2])
    within = [label for label in labels if label not in free]
    bad = [label for label in within if not any(box[0] - 1 <= label[0] and label[2] <= box[2] + 1 for box in outer)]
    tally.check(f"{what}: texts of boxes fit", not bad, bad[:2])
    near = by_cell([point for line in lines for point in line])
    bad = [(point, box) for box in outer for point in near(box) if inside(point, box)]
    tally.check(f"{what}: no line behind a box", not bad, bad[:2])
    bad = [(point, label) for label in free for point in near(label) if inside(point, label)]
    tally.check(f"{what}: no line through a text", not bad, bad[:2])


def by_cell(all_points, size=50):
    """Finds the points near a box by the cells of a grid, since there are many."""
    cells = {}
    for x, y in all_points:
        cells.setdefault((x // size, y // size), []).append((x, y))

    def near(box):
        columns = range(int(box[0] // size), int(box[2] // size) + 1)
        rows = range(int(box[1] // size), int(box[3] // size) + 1)
        return [point for column in columns for row in rows for point in cells.get((column, row), [])]

    return near


def complete(tally, what, shown, text):
    """Every arrow has a line and a head, every name is there."""
    lines = text.count('fill="none"')
    roots = len(shown.roots) if shown.boxes[0].kind == "node" else 0
    tally.same(f"{what}: arrows", lines, len(shown.arrows) + roots)
    tally.same(f"{what}: heads", len(re.findall(r'<path class="head" d="[^"]*z" fill="#', text)), lines)
    texts = unescape(re.sub("<[^>]*>", "\n", text))
    wanted = [box.title for box in shown.boxes] + [label.text() for arrow in shown.arrows for label in arrow.labels]
    missing = [name for name in wanted if name not in texts]
    tally.check(f"{what}: names", not missing, missing[:4])


def folded(tally, what, shown):
    """No wider than it is told to be, unless one box with its arrows is; and each arrow goes on where its number stands again."""
    wide = svg.write(shown)
    natural, narrow = size(wide)[0], 260 + max(span_of_a_column(shown), 0)
    if natural <= narrow:
        tally.check(f"{what}: narrow enough as it is", svg.write(shown, wide=narrow) == wide, (natural, narrow))
        return
    text = svg.write(shown, wide=narrow)
    tally.check(f"{what}: folded", size(text)[0] <= narrow, (size(text), narrow))
    apart(tally, f"{what}, folded", text)
    drawn = tree.fromstring(text)
    for group in drawn.iter("{http://www.w3.org/2000/svg}g"):
        if group.get("class", "").startswith("arrow"):
            lines = sum(path.get("fill") == "none" for path in group)
            heads = sum(path.get("class") == "head" for path in group)
            tags = [(part.tail or "") for element in group for part in element if element.get("class") == "cut"]
            tally.check(f"{what}, folded: an arrow in parts", heads == 1 and len(tags) == 2 * (lines - 1) and len(set(tags)) <= 1, (lines, heads, tags))
    numbers = [{(part.tail or "") for element in group for part in element if element.get("class") == "cut"} for group in drawn.iter("{http://www.w3.org/2000/svg}g")]
    used = [number for found in numbers for number in found]
    tally.same(f"{what}, folded: each its own number", len(used), len(set(used)))


def span_of_a_column(shown):
    """The widest that a column of boxes and one of labels can be."""
    from lineup.shapes import Shape, label_piece

    boxes = [Shape(box, [], 0).piece.width for box in shown.boxes]
    return max(boxes) + max([label_piece(arrow).width for arrow in shown.arrows], default=0)


def size(text):
    return tuple(int(number) for number in re.search(r' width="(\d+)" height="(\d+)"', text).groups())


def by_graphviz(tally, what, text):
    """Where graphviz is, it reads the dot text. Large ones take it seconds."""
    if shutil.which("dot") and len(text) < 3000:
        done = subprocess.run(["dot", "-Tplain"], input=text, capture_output=True, text=True, check=False)
        tally.same(f"{what}: graphviz", (done.returncode, done.stderr), (0, ""))
