"""The parts of a page around its walker: names and verdict, refusals, pictures, and the core's own lines."""
import os
import re
from html import escape

from lineup import svg
from lineup.refusals import REFUSALS
from lineup.trouble import place
from lineup.visible import inline

LARGE, NARROW, TALL = 1_600, 560, 2_400  # a picture that is wider, to the right or downwards, or higher is not made smaller, but scrolled
PAPER = 720  # how wide a page is


def text(told):
    return escape(str(told), quote=True)


def name_of(source):
    """What a net, a sheet, a log or durations are called: by themselves, or else by their file, or by the folder of their words."""
    folder, file = os.path.split(os.path.abspath(source.path))
    stem = os.path.splitext(file)[0]
    return source.model and source.model.name or (os.path.basename(folder) if stem in ("net", "sheet", "log", "times") else stem)


def head(sheet, net, verdict, good, numbers):
    """The names, the verdict, and (what, how many)."""
    lines = ["<div>", '<p class="kind">Line-up schedule</p>', f'<h1>{text(sheet)}' + (f' <span class="of">of {text(net)}</span>' if net != sheet else "") + "</h1>"]
    lines += [f'<p class="verdict {"good" if good else "bad"}">{text(verdict)}</p>', "</div>"]
    if numbers:
        lines.append('<dl class="numbers">' + "".join(f"<div><dt>{text(what)}</dt><dd>{many:,}</dd></div>" for what, many in numbers) + "</dl>")
    return lines


def section(name, title, lines, kind="part"):
    return [f'<section id="{name}" class="{kind}" aria-labelledby="{name}-title">', f'<h2 id="{name}-title">{text(title)}</h2>', *lines, "</section>"]


def refusal(name, title, explanation, answer, likely=()):
    """A refusal with its explanation, as `lineup check` tells it."""
    lines = [f'<p class="where">{text(place(explanation.source.path, *(explanation.where or ())).rstrip(": "))}</p>']
    lines.append("<ul>" + "".join(f"<li>{text(line)}</li>" for line in [*explanation.lines, *likely]) + "</ul>")
    lines.append(f'<p class="note">{text(REFUSALS[answer.number].meaning)}</p>')
    lines += [f'<p class="to-do"><strong>To do:</strong> {text(explanation.remedy)}</p>', f"<pre>core: {text(answer.line)}</pre>"]
    return section(name, title, lines, "refusal")


def drawn(kind, title, picture, about, note):
    """A picture that goes to the right; for narrow screens one that goes downwards; for paper and for tablets a folded one, if the first is much too
    wide for these. Its own size is kept where it is too large to be made smaller."""
    lines, along, folded = [], 0, ""
    for way, down, most, fold in (("along", False, LARGE, None), ("down", True, NARROW, None), ("printed", False, LARGE, PAPER)):
        if fold and along <= fold * 4 / 3:
            break
        told = svg.write(picture, down, fold)
        wide, high = map(int, re.search(r' width="(\d+)" height="(\d+)"', told).groups())
        along = along or wide
        folded = ' <span class="folded">An arrow that is cut goes on where its number stands again.</span>' if fold else ""
        large = (" large" if wide > most else "") + (" tall" if high > TALL else "")
        lines.append(told.rstrip("\n").replace(' xmlns="http://www.w3.org/2000/svg"', f' class="{way}{large}" role="img" aria-label="{text(about)}"', 1))
    return section(kind, title, [f'<figure class="picture {kind}" tabindex="0" role="group" aria-label="{text(title)}">', *lines, "</figure>", f'<p class="note">{text(note)}{folded}</p>'])


def foot(lines, files):
    """The core's own lines, and the files that were read."""
    read = ", ".join(text(inline(file)) for file in files)
    return [f"<p>Read from {read}. Verdict and numbers are the proved core's; it answered:</p>", "<pre>" + "\n".join(f"core: {text(line)}" for line in lines) + "</pre>"]
