"""What each place holds after each firing of a log, as a row of steps: SVG that stretches to its room."""
from lineup.page_parts import text

HIGH = 100  # what a full row stands for


def rows(net, counts, scales):
    """A row for each place; `counts` are those at first and after each firing, and `scales` what a full row of each stands for."""
    lines = ['<ul class="levels">']
    for p, name in enumerate(net.places):
        held = [found.get(p, 0) for found in counts]
        about = f"{name}: {held[0]:,} at first, {held[-1]:,} at the end, from {min(held):,} to {max(held):,} in between"
        lines.append(f'<li><span class="name">{text(name)}</span><svg role="img" aria-label="{text(about)}" viewBox="0 0 {len(held)} {HIGH}" preserveAspectRatio="none">')
        lines.append(f'<path class="level" d="{steps(held, scales[p])}"/><path class="cursor" d="M0 0 H1 V{HIGH} H0 z"/></svg></li>')
    return [*lines, "</ul>"]


def steps(held, scale):
    """The area below the counts: each lasts one unit, and what does not change goes on."""
    told, before = [f"M0 {HIGH}"], None
    for i, count in enumerate(held):
        if count != before:
            told.append(f"H{i} V{HIGH * (1 - count / scale):.4g}")
            before = count
    return " ".join([*told, f"H{len(held)} V{HIGH} z"])
