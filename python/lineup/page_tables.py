"""A page's tables: what a log took and put, the reaction times with bars, the nodes one by one."""
from lineup import levels
from lineup.page_parts import name_of, section, text
from lineup.report import plural


def table(heads, rows, numbers=()):
    side = lambda i: ' class="number"' if i in numbers else ""
    lines = ["<table>", "<thead><tr>" + "".join(f'<th scope="col"{side(i)}>{text(name)}</th>' for i, name in enumerate(heads)) + "</tr></thead>", "<tbody>"]
    for row in rows:
        lines.append("<tr>" + "".join(f"<td{side(i)}>{f'{cell:,}' if isinstance(cell, int) else text(cell)}</td>" for i, cell in enumerate(row)) + "</tr>")
    return [*lines, "</tbody>", "</table>"]


def logged(net, sheet, log, sums, scales):
    """What the places held after each firing, what the firings took and put, and they themselves; `sums` is what the core added up."""
    counts = [sheet.counts[n] for n in [0, *log.model.nodes]]
    rows = [[name, net.start.get(p, 0), sums["put"][name], sums["taken"][name], sums["held"][p]] for p, name in enumerate(net.places)]
    lines = ["<h3>What the places held, firing by firing</h3>", *levels.rows(net, counts, scales)]
    lines += ['<div class="scroll">', *table(["place", "starts with", "put", "taken", "holds then"], rows, [1, 2, 3, 4]), "</div>"]
    lines += [f"<details><summary>{plural(len(log.model.firings), 'firing')}, one by one</summary>", '<ol class="firings">']
    for i, (t, n) in enumerate(zip(log.model.firings, log.model.nodes), 1):
        lines.append(f'<li><button type="button"><span>{i:,}</span>{text(net.transitions[t])} → {text(sheet.nodes[n])}</button></li>')
    return section("log", f"The log {name_of(log)}", [*lines, "</ol>", "</details>"])


def node_by_node(net, sheet):
    waits = set(sheet.awaits(net))
    arrows = [", ".join(f"{net.transitions[t]} → {sheet.nodes[m]}" for t, m in sorted(arcs.items())) for arcs in sheet.arcs]
    rows = [[name + (" (waits)" if n in waits else ""), net.held(sheet.counts[n]), arrows[n]] for n, name in enumerate(sheet.nodes)]
    lines = [f"<details><summary>{plural(len(sheet.nodes), 'node')}: what each holds, and where its arrows lead</summary>", '<div class="scroll">']
    return section("nodes", "Node by node", [*lines, *table(["node", "holds", "arrows"], rows), "</div>", "</details>"])


def times(name, reactions):
    """The reaction times as a table with bars."""
    most = max([found["worst"] for found in reactions] + [1])
    lines = ['<table class="reactions">', '<thead><tr><th scope="col">waits at</th><th scope="col">source</th>']
    lines += ['<th scope="col" class="number">at best</th><th scope="col" class="number">at worst</th><td></td></tr></thead>', "<tbody>"]
    for found in reactions:
        cells = f"<td>{text(found['node'])}</td><td>{text(found['source'])}</td>"
        cells += "".join(f'<td class="number" data-word="{word}">{found[word]:,} s<small>{clock(found[word])}</small></td>' for word in ("best", "worst"))
        bars = "".join(f'<span class="{word}" style="width:{100 * found[word] / most:.4g}%"></span>' for word in ("worst", "best"))
        lines.append(f'<tr>{cells}<td class="span" aria-hidden="true">{bars}</td></tr>')
    lines += ["</tbody></table>", '<p class="key"><span><i class="is-best"></i>at best</span><span><i class="is-worst"></i>at worst</span><span>from the source to the next node that waits</span></p>']
    runs = [[f"{found['node']}, {found['source']}", word, ", ".join(found[f"{word}_run"]["fires"]) + " → " + found[f"{word}_run"]["node"]] for found in reactions for word in ("best", "worst")]
    lines += ["<details><summary>Runs that take so long, found by lineup along the arrows</summary>", '<div class="scroll">', *table(["from", "", "firings"], runs), "</div></details>"]
    return section("times", f"How long until it waits again: {name}", lines)


def clock(seconds):
    """Seconds in hours and minutes, as far as they are whole; nothing for less than a minute."""
    hours, minutes, rest = seconds // 3600, seconds // 60 % 60, seconds % 60
    parts = [(hours, "h"), (minutes, "min"), (rest, "s")]
    return " ".join(f"{many:,} {unit}" for many, unit in parts if many) if seconds >= 60 else ""
