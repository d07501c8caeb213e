"""A page's walker: where it stands, what is offered, the places as bars, a log with its slider; and what page.js follows."""
from lineup.page_parts import name_of, section, text

MANY = 10  # more places than so many stand below the walker, not beside it


def walker(net, sheet, bounds, log):
    """Where one stands, what is offered, back and reset; a log with its slider; the places as bars."""
    lines = [f'<div class="stage{" many" if len(net.places) > MANY else ""}">', "<div>", '<div class="now">']
    lines += [f'<span>At node</span> <strong class="node" id="node">{text(sheet.nodes[0])}</strong> <span class="tag" id="waits">waits</span>']
    lines += ['<span class="moves screen" hidden><button type="button" id="back">Back</button> <button type="button" id="reset">Reset</button></span></div>']
    lines += ["<noscript><p>The walker needs the browser's script, which is switched off here. All else on this page does without.</p></noscript>"]
    lines += ['<h3 class="screen" hidden>Offered here</h3>', '<div class="offered" id="offered" role="group" aria-label="Offered transitions"></div>']
    lines += log_player(log) if log else []
    lines += ['<div class="trail-line screen" hidden><h3>Fired so far: <span id="fired">0</span></h3><ol class="trail" id="trail"></ol></div>']
    keys = "Keys: 1 to 9 fire, b goes back, r resets" + (", n fires the log's next, p plays it." if log else ".")
    lines += [f'<p class="note keys screen" hidden>{keys} In the pictures, what is offered can be clicked.</p>', '<p class="unseen" id="live" aria-live="polite"></p>', "</div>"]
    return section("walk", "Walk through it", [*lines, "<div>", *tanks(net, sheet, bounds), "</div>", "</div>"])


def log_player(log):
    many = len(log.model.firings)
    slider = f'<input type="range" id="slider" min="0" max="{many}" value="0" step="1" aria-labelledby="slider-title">'
    moves = f'<div class="moves"><button type="button" id="play">Play</button> <button type="button" id="next">Next</button> {slider}</div>'
    return ['<div class="log screen" hidden>', f'<h3 id="slider-title">The log {text(name_of(log))}</h3>', moves, '<p class="at" id="at"></p>', "</div>"]


def scale(net, bounds, p):
    """What a full bar stands for: the place's top, or else the most that it ever holds."""
    return max(net.capacity.get(p, 0), bounds[p], 1)


def tanks(net, sheet, bounds):
    rows = []
    for p, name in enumerate(net.places):
        count, top, whole = sheet.counts[0].get(p, 0), net.capacity.get(p), scale(net, bounds, p)
        limits = [f"at most {bounds[p]:,}"] + ([f"top {top:,}"] if top else [])
        meter = f'role="meter" aria-label="{text(", ".join([name, *limits]))}" aria-valuemin="0" aria-valuemax="{whole}" aria-valuenow="{count}"'
        rows.append(f'<li class="tank{" topped" if top else ""}"><span class="name">{text(name)}</span>')
        rows.append(f'<span class="track" {meter}><span class="full" style="width:{100 * count / whole:.4g}%"></span><span class="bound" style="left:{100 * bounds[p] / whole:.4g}%"></span></span>')
        rows.append(f'<span class="count"><b>{count:,}</b> <i>{",</i> <i>".join(limits)}</i> <span class="change"></span></span></li>')
    key = ['<i class="is-full"></i>held now', '<i class="is-bound"></i>the most that it ever holds'] + (['<i class="is-top"></i>its top, the most that it can hold'] if net.capacity else [])
    return ["<h3>What the places hold</h3>", '<ul class="tanks">', *rows, "</ul>", '<p class="key">' + "".join(f"<span>{one}</span>" for one in key) + "</p>"]


def data(net, sheet, bounds, log):
    """What the walker follows: the sheet as the core accepted it, and the log."""
    places = range(len(net.places))
    found = {"places": net.places, "transitions": net.transitions, "nodes": sheet.nodes, "waits": sheet.awaits(net)}
    found["arcs"] = [sorted(arcs.items()) for arcs in sheet.arcs]
    found["counts"] = [[counts.get(p, 0) for p in places] for counts in sheet.counts]
    found["scales"] = [scale(net, bounds, p) for p in places]
    return {**found, "log": {"firings": log.model.firings, "nodes": log.model.nodes} if log else None}
