"""Pages: one file without outside reference, which shows what the core answered; in a real browser a reader walks through the jetty, plays its log, and reads it on a phone and on paper."""
import json
import os
import re
import tempfile
from html.parser import HTMLParser

import browser
from called import lineup
from lineup import core, inputs
from lineup.home import HOME

JETTY, TIMES = (os.path.join(HOME, "samples", name) for name in ("jetty", "jetty-times"))
MAY = [os.path.join(JETTY, name) for name in ("jetty.net", "may.sheet", "may.log")]
JULY = [os.path.join(TIMES, name) for name in ("jetty.net", "july.sheet")]
DURATIONS = os.path.join(TIMES, "july.times")
EVIL = "</script ><script>owned=1</script >"  # a blank, so that escaping either sign alone would not do
PICTURE = '\\"><img src=x onerror=owned=1>'
FILES = {
    "x.net": "pl a\ntr s -> a\ntr u a ->\n",
    "x.sheet": "n:\n  s -> m\nm: a\n  u -> n\n",
    "torn.sheet": "n:\n  s -> m\nm: a\n",
    "none.log": "",
    "wrong.log": "log wrong\ns -> m\nu -> n\nu -> n\n",
    "loop.net": "tr s -> a\ntr b a -> a\ntr u a ->\n",
    "loop.sheet": "n:\n  s -> m\nm: a\n  b -> m\n  u -> n\n",
    "loop.times": "s 0 0\nb 0 0\nu 0 0\n",
    "evil.net": f"net {{{EVIL}}}\npl {{{EVIL}}} <= 3\npl {{<!--}}\ntr {{{PICTURE}}} -> {{{EVIL}}}\ntr {{&lt;u}} {{{EVIL}}} -> \n",
    "evil.sheet": f"sheet {{<b>bold</b>}}\n{{__proto__}}:\n  {{{PICTURE}}} -> {{{EVIL}}}\n{{{EVIL}}}: {{{EVIL}}}\n  {{&lt;u}} -> {{__proto__}}\n",
    "evil.log": f"log {{{EVIL}}}\n{{{PICTURE}}} -> {{{EVIL}}}\n",
    "wide.net": f"pl {{{'w' * 70}}} <= 1000000000\npl {{{'a b ' * 30}}} (1000000000) <= 1000000000\npl c\ntr {{{'t' * 90}}} -> {{{'w' * 70}}}*1000000000\ntr u {{{'w' * 70}}}*1000000000 ->\n",
    "wide.sheet": f"{{{'n' * 80}}}: {{{'a b ' * 30}}}*1000000000\n  {{{'t' * 90}}} -> m\nm: {{{'w' * 70}}}*1000000000 {{{'a b ' * 30}}}*1000000000\n  u -> {{{'n' * 80}}}\n",
    "large.net": "pl a <= 1000000000\npl b (1000000000)\ntr s -> a*1000000000\ntr u a*1000000000 ->\n",
    "large.sheet": "n: b*1000000000\n  s -> m\nm: a*1000000000 b*1000000000\n  u -> n\n",
}


def run(tally):
    with tempfile.TemporaryDirectory() as folder:
        for name, text in FILES.items():
            with open(os.path.join(folder, name), "w", encoding="utf-8") as file:
                file.write(text)
        written(tally, folder)
        refused(tally, folder)
        if not browser.found():
            print("skipped: no chromium")
            return
        with browser.Browser() as reader:
            walked(tally, folder, reader)
            played(tally, folder, reader)
            timed(tally, folder, reader)
            hostile(tally, folder, reader)
            looks(tally, folder, reader)


def page(folder, *arguments, status=0):
    """The text of a page that lineup writes."""
    found = lineup(folder, "page", *arguments, "-o", "page.html", "--force")
    if (found[0], found[2]) != (status, ""):
        raise AssertionError(f"{arguments}: {found}")
    with open(os.path.join(folder, "page.html"), encoding="utf-8") as file:
        return file.read()


class Reader(HTMLParser):
    """The elements and the texts of a page; what it refers to; and elements that are not closed, or closed and not open."""

    EMPTY = {"meta", "input", "br", "img", "link", "rect", "path", "circle"}

    def __init__(self, text):
        super().__init__()
        self.open, self.wrong, self.references, self.texts, self.names = [], [], [], [], []
        self.feed(text)
        self.close()
        self.wrong += self.open

    def handle_starttag(self, tag, attributes):
        self.references += [value for name, value in attributes if name in ("src", "href", "action", "data", "srcset", "xlink:href", "poster")]
        self.names += [value for name, value in attributes if name == "id"]
        if tag not in self.EMPTY:
            self.open.append(tag)

    def handle_startendtag(self, tag, attributes):
        pass

    def handle_endtag(self, tag):
        if not self.open or self.open.pop() != tag:
            self.wrong.append(tag)

    def handle_data(self, data):
        self.texts.append(data)

    def said(self):
        return re.sub(r"\s+", " ", " ".join(self.texts))


def written(tally, folder):
    """What stands in the file, whatever reads it."""
    told = lineup(folder, "page", *MAY, "--times", os.path.join(folder, "x"), "-o", "page.html")
    tally.same("no such durations", (told[0], os.path.exists(os.path.join(folder, "page.html"))), (2, False))
    told = lineup(folder, "page", *MAY, "-o", "page.html")
    lines = ["written: page.html", "  core: answer 0 none 0 nodes 9 arcs 11 awaits 2", "  core: answer 0 none 0 out 1 1 1 2 1 rest 0"]
    tally.same("page: told", (told[0], told[1].split("\n")[:3], told[2]), (0, lines, ""))
    again = lineup(folder, "page", *MAY, "-o", "page.html")
    tally.same("a page may be written again", again, told)
    text = page(folder, *MAY)
    tally.same("on standard output", lineup(folder, "page", *MAY), (0, text, ""))
    found = json.loads(lineup(folder, "page", *MAY, "--json")[1])
    tally.same("as JSON", (found["accepted"], found["page"], len(found["core"])), (True, text, 3))
    tally.same("a folder of words", lineup(folder, "page", JETTY, MAY[2])[0], 0)
    for what, one in (("May", text), ("July", page(folder, *JULY, "--times", DURATIONS)), ("a refused one", page(folder, "x.net", "torn.sheet", status=1))):
        seen = Reader(one)
        tally.same(f"{what}: elements", seen.wrong, [])
        tally.same(f"{what}: no outside reference", ([r for r in seen.references if not r.startswith("#")], "://" in one, "url(" in one, "@import" in one), ([], False, False, False))
        tally.same(f"{what}: ids", len(seen.names), len(set(seen.names)))
        tally.check(f"{what}: nothing else may be fetched", "default-src 'none'" in one)


def refused(tally, folder):
    """What is refused is explained as check explains it, with the pictures, and is not walked."""
    for arguments, parts in (
        (["x.net", "torn.sheet"], ["Refused, 11 dead end", "torn.sheet:3:1", "node m has no arrow", "To do: Give the node its arrows", "core: answer 11 node 1 nodes 0 arcs 0 awaits 0"]),
        ([os.path.join(HOME, "samples", "06-ragged-sheet")], ["Refused, 6 ragged sheet", "To do: Fetch the file again", "core: answer 6"]),
        ([os.path.join(HOME, "samples", "02-net-size")], ["Refused, 2 net size", "core: answer 2"]),
    ):
        text = page(folder, *arguments, status=1)
        tally.holds(f"{arguments}: told", Reader(text).said(), *parts)
        tally.same(f"{arguments}: no walker", ('id="data"' in text, 'id="walk"' in text), (False, False))
        tally.same(f"{arguments}: pictures", text.count("<svg"), 4 if "x.net" in arguments else 2 if "06" in arguments[0] else 0)
    tally.check("the fault is marked", 'class="box node fault"' in page(folder, "x.net", "torn.sheet", status=1))
    text = page(folder, "x.net", "x.sheet", "wrong.log", status=1)
    tally.holds("a refused log", Reader(text).said(), "Accepted", "The log is refused, 20 not offered", "firing 3 of 3, u: node n offers s", "core: answer 20 record 2")
    tally.check("it is played up to there", 'id="slider" min="0" max="2"' in text and "\"log\":{\"firings\":[0,1],\"nodes\":[1,0]}" in text)
    text = page(folder, "x.net", "x.sheet", "none.log", status=1)
    tally.holds("a log that is none", Reader(text).said(), "Accepted", "The log is refused, 23 no record")
    tally.same("is not played", ('id="slider"' in text, 'id="walk"' in text), (False, True))
    text = page(folder, "loop.net", "loop.sheet", "--times", "loop.times", status=1)
    tally.holds("no worst time", Reader(text).said(), "Accepted", "Reaction times: refused, 33 endless reaction", "from node m: b -> m", "core: answer 33 node 1")


# ---- in the browser


def shown(reader):
    """What a reader sees of the walker."""
    return {
        "node": reader.tell("document.getElementById('node').innerText"),
        "waits": not reader.tell("document.getElementById('waits').hidden"),
        "offered": reader.tell("Array.from(document.querySelectorAll('#offered button')).map(b => b.innerText.replace(/\\s+/g, ' ').trim())"),
        "counts": reader.tell("Array.from(document.querySelectorAll('.tank .count b')).map(b => Number(b.innerText.replaceAll(',', '')))"),
        "meters": reader.tell("Array.from(document.querySelectorAll('.tank .track')).map(t => Number(t.getAttribute('aria-valuenow')))"),
        "lit": reader.tell("Array.from(document.querySelectorAll('.sheet .here')).filter(seen).map(g => g.querySelector('text').textContent)"),
        "next": sorted(reader.tell("Array.from(document.querySelectorAll('.sheet .next')).filter(seen).map(g => g.querySelector('text').textContent)")),
        "tokens": reader.tell("Array.from(document.querySelectorAll('.net .tokens')).filter(t => seen(t.parentElement)).map(t => Number(t.textContent))"),
    }


def expected(net, sheet, n):
    counts = [sheet.counts[n].get(p, 0) for p in range(len(net.places))]
    offered = [f"{i} {net.transitions[t]} → {sheet.nodes[m]}" for i, (t, m) in enumerate(sorted(sheet.arcs[n].items()), 1)]
    lit = {"node": sheet.nodes[n], "waits": n in sheet.awaits(net), "offered": offered, "lit": [sheet.nodes[n]], "next": sorted({sheet.nodes[m] for m in sheet.arcs[n].values()})}
    return {**lit, "counts": counts, "meters": counts, "tokens": counts}


def opened(reader, folder, *arguments, status=0):
    page(folder, *arguments, status=status)
    reader.open(os.path.join(folder, "page.html"))
    reader.tell("window.seen = e => e.getClientRects().length > 0; 1")


def walked(tally, folder, reader):
    """Every arrow of the jetty, by mouse, by keys and in the pictures; each time what is shown is what the core says of the firings so far."""
    source = inputs.net(MAY[0])
    net, sheet_source = source.model, inputs.sheet(MAY[1], source)
    sheet = sheet_source.model
    reader.size(1280, 900)
    opened(reader, folder, *MAY)
    tally.holds("the verdict and its numbers", re.sub(r"\s+", " ", reader.tell("document.querySelector('header').innerText")), "may of jetty", "Accepted", "nodes 9 arcs 11 await nodes 2")
    way = way_over_all(sheet)
    tally.same("a way over every arrow", len(set(way)), 11)
    node, record = 0, []
    tally.same("at first", shown(reader), expected(net, sheet, 0))
    for i, (n, t) in enumerate(way):
        move = [by_button, by_key, by_node, by_transition][i % 4]
        move(reader, net, sheet, n, t)
        node, record = sheet.arcs[n][t], [*record, t]
        answer = core.ask(core.run(source.words, sheet_source.words, record))[0]
        seen = shown(reader)
        tally.same(f"step {i + 1}, {move.__name__}", seen, expected(net, sheet, node))
        tally.same(f"step {i + 1}, the core's run", (seen["node"], seen["counts"]), (sheet.nodes[answer.own["node"]], answer.out))
        last = reader.tell("Array.from(document.querySelectorAll('.sheet .arrow.last')).filter(seen).map(a => [Number(a.dataset.from), Number(a.dataset.to)])")
        tally.same(f"step {i + 1}, its arrow", last, [[n, node]])
    tally.same("the firings", reader.tell("document.getElementById('fired').innerText"), str(len(way)))
    backwards(tally, reader, net, sheet, way)
    spoken(tally, reader)


def way_over_all(sheet):
    """A walk from the first node over every arrow at least once."""
    todo, node, way = {(n, t) for n, arcs in enumerate(sheet.arcs) for t in arcs}, 0, []
    while todo:
        queue, seen = [(node, [])], {node}
        while queue:
            here, path = queue.pop(0)
            fresh = next((t for t in sorted(sheet.arcs[here]) if (here, t) in todo), None)
            if fresh is not None:
                path = [*path, (here, fresh)]
                break
            for t, m in sorted(sheet.arcs[here].items()):
                if m not in seen:
                    seen.add(m)
                    queue.append((m, [*path, (here, t)]))
        way += path
        todo -= set(path)
        node = sheet.arcs[path[-1][0]][path[-1][1]]
    return way


def by_button(reader, net, sheet, n, t):
    reader.click(f'#offered [data-fires="{t}"]')


def by_key(reader, net, sheet, n, t):
    reader.press(str(sorted(sheet.arcs[n]).index(t) + 1))


def by_node(reader, net, sheet, n, t):
    reader.click(f'.sheet .along .box[data-box="{sheet.arcs[n][t]}"]')


def by_transition(reader, net, sheet, n, t):
    reader.click(f'.net .along .box[data-box="{len(net.places) + t}"]')


def backwards(tally, reader, net, sheet, way):
    reader.click("#back")
    tally.same("back", shown(reader), expected(net, sheet, way[-1][0]))
    reader.press("b")
    tally.same("back by a key", shown(reader), expected(net, sheet, way[-2][0]))
    reader.press("9")
    tally.same("a key for what is not offered", shown(reader), expected(net, sheet, way[-2][0]))
    reader.click("#reset")
    tally.same("reset", (shown(reader), reader.tell("document.getElementById('back').disabled")), (expected(net, sheet, 0), True))
    reader.tell("document.querySelector('#offered button').focus()")
    reader.press("Enter", 13, "\r")
    tally.same("the button by Enter", shown(reader)["node"], "berthed")
    tally.check("and the focus stays with what is offered", reader.tell("document.activeElement.closest('#offered') !== null"))
    reader.click("#back")
    tally.check("and goes there where nothing can be taken back any more", reader.tell("document.activeElement.closest('#offered') !== null"))
    reader.press("1")
    reader.press("r")
    tally.same("reset by a key", shown(reader)["node"], "idle")


def spoken(tally, reader):
    """What is read aloud, and that everything to press has a name."""
    reader.press("1")
    live = reader.tell("[document.getElementById('live').getAttribute('aria-live'), document.getElementById('live').textContent]")
    tally.same("read aloud", live, ["polite", "berth fired. Node berthed. Held: jetty 1, header 1. Offered: line-up."])
    unnamed = reader.tell("Array.from(document.querySelectorAll('button, input')).filter(e => !(e.textContent || e.getAttribute('aria-labelledby') || e.getAttribute('aria-label'))).map(e => e.outerHTML)")
    tally.same("what can be pressed has a name", unnamed, [])
    lost = reader.tell("Array.from(document.querySelectorAll('[aria-labelledby]')).filter(e => !document.getElementById(e.getAttribute('aria-labelledby'))).length")
    tally.same("and the name is there", lost, 0)
    wide = reader.tell("Array.from(document.querySelectorAll('.tank')).map(t => [t.querySelector('.full').style.width, t.classList.contains('topped'), t.querySelector('.bound').style.left])")
    tally.same("bars, tops and bounds", wide, [["100%", False, "100%"], ["100%", False, "100%"], ["0%", False, "100%"], ["0%", True, "100%"], ["0%", False, "100%"]])


def played(tally, folder, reader):
    """The log by its slider, by the buttons and by the keys."""
    source = inputs.net(MAY[0])
    net, sheet = source.model, inputs.sheet(MAY[1], source).model
    log = inputs.log(MAY[2], source, inputs.sheet(MAY[1], source)).model
    opened(reader, folder, *MAY)
    at = lambda: reader.tell("[Number(document.getElementById('slider').value), document.getElementById('at').innerText]")
    for i, (t, n) in enumerate(zip(log.firings, log.nodes), 1):
        if i % 2:
            reader.click("#next")
        else:
            reader.tell("document.getElementById('slider').focus()")
            reader.press("ArrowRight", 39)
        tally.same(f"firing {i}", (shown(reader), at()), (expected(net, sheet, n), [i, f"firing {i} of 9: {net.transitions[t]}"]))
    tally.check("at the end there is no next", reader.tell("document.getElementById('next').disabled"))
    reader.tell("document.getElementById('slider').focus()")
    reader.press("Home", 36)
    tally.same("the slider's own keys", (shown(reader), at()), (expected(net, sheet, 0), [0, "before the first of 9"]))
    reader.click("#slider", 1 / 3)
    tally.same("the slider by the mouse", (shown(reader), at()[0]), (expected(net, sheet, log.nodes[2]), 3))
    reader.click("#offered button")
    reader.click('#offered [data-fires="3"]')
    tally.same("off the log", at(), [4, "left the log after firing 4"])
    reader.tell("document.querySelector('#log details').open = true")
    reader.click("#log li:nth-child(8) button")
    tally.same("a firing of the list", (shown(reader), at()[0]), (expected(net, sheet, log.nodes[7]), 8))
    tally.same("and it is marked", reader.tell("Array.from(document.querySelectorAll('#log [aria-current]')).map(b => b.innerText)"), ["8passes → full"])
    reader.click("#play")
    reader.wait("document.getElementById('slider').value === '9'")
    tally.same("it plays to its end, and stops", (shown(reader), reader.tell("document.getElementById('play').innerText")), (expected(net, sheet, 0), "Play"))
    levels = reader.tell("Array.from(document.querySelectorAll('.levels li')).map(l => [l.querySelector('.name').innerText, l.querySelector('.level').getAttribute('d')])")
    tally.same("how full a place was, firing by firing", levels[3], ["tank1", "M0 100 H0 V100 H5 V50 H8 V0 H9 V100 H10 V100 z"])
    tally.same("a row for each", [name for name, _ in levels], net.places)
    reader.click(".levels svg", 0.55)
    tally.same("a row can be clicked", (shown(reader), at()[0]), (expected(net, sheet, log.nodes[4]), 5))
    tally.same("its mark moves", reader.tell("(r => Math.round((document.querySelector('.cursor').getBoundingClientRect().left - r.left) / r.width * 10))(document.querySelector('.levels svg').getBoundingClientRect())"), 5)
    rows = reader.tell("Array.from(document.querySelectorAll('#log tbody tr')).map(r => Array.from(r.cells).map(c => c.innerText))")
    tally.same("what the log took and put", rows, [["jetty", "0", "2", "2", "0"], ["header", "1", "3", "3", "1"], ["line", "0", "3", "3", "0"], ["tank1", "0", "2", "2", "0"], ["tank2", "0", "1", "1", "0"]])


def timed(tally, folder, reader):
    """The reaction times, as lineup times tells them."""
    opened(reader, folder, *JULY, "--times", DURATIONS)
    rows = reader.tell("Array.from(document.querySelectorAll('#times .reactions tbody tr')).map(r => Array.from(r.cells).map(c => c.innerText))")
    tally.same("a table", rows, [["idle", "berth", "3,900 s\n1 h 5 min", "29,700 s\n8 h 15 min", ""], ["half", "berth", "8,100 s\n2 h 15 min", "44,100 s\n12 h 15 min", ""]])
    wide = reader.tell("Array.from(document.querySelectorAll('#times .span')).map(c => Array.from(c.children).map(b => b.getBoundingClientRect().width / c.getBoundingClientRect().width))")
    tally.check("bars", all(abs(is_ - should / 44100) < 0.01 for row, shoulds in zip(wide, ((29700, 3900), (44100, 8100))) for is_, should in zip(row, shoulds)), wide)
    reader.tell("document.querySelector('#times details').open = true")
    tally.holds("runs", reader.tell("document.getElementById('times').innerText"), "berth, line-up, passes → half", "berth, line-up, fails, rework, mended, load → idle")


def hostile(tally, folder, reader):
    """No name is taken for anything else, none runs, and nothing is fetched."""
    opened(reader, folder, "evil.net", "evil.sheet", "evil.log")
    tally.same("its title", reader.tell("document.title"), "<b>bold</b>: accepted")
    tally.holds("its head", reader.tell("document.querySelector('h1').innerText"), "<b>bold</b>", EVIL)
    seen = shown(reader)
    tally.same("its names", (seen["node"], seen["offered"]), ("__proto__", [f'1 "><img src=x onerror=owned=1> → {EVIL}']))
    reader.press("1")
    seen = shown(reader)
    tally.same("its next names", (seen["node"], seen["offered"], seen["counts"]), (EVIL, ["1 &lt;u → __proto__"], [1, 0]))
    tally.same("nothing ran", reader.tell("typeof owned + document.images.length + document.querySelectorAll('script').length"), "undefined02")
    asked = [said["params"]["request"]["url"] for said in reader.said if said.get("method") == "Network.requestWillBeSent"]
    tally.same("nothing was fetched but the page", asked, ["file://" + os.path.join(folder, "page.html")])
    bad = [said["params"] for said in reader.said if said.get("method") in ("Log.entryAdded", "Runtime.exceptionThrown")]
    tally.same("nothing went wrong", bad, [])
    opened(reader, folder, "x.net", "torn.sheet", status=1)
    tally.same("a refused sheet has no walker", reader.tell("[document.querySelectorAll('button').length, document.querySelector('.verdict').innerText]"), [0, "Refused, 11 dead end"])
    tally.same("and nothing went wrong", [said["params"] for said in reader.said if said.get("method") in ("Log.entryAdded", "Runtime.exceptionThrown")], [])
    opened(reader, folder, "large.net", "large.sheet")
    reader.press("1")
    tally.same("great numbers", (shown(reader)["counts"], shown(reader)["tokens"]), ([10**9, 10**9], [10**9, 10**9]))


def without_script(tally, folder, reader):
    """All that is no walker is there; nothing that would need one is shown."""
    reader.call("Emulation.setScriptExecutionDisabled", value=True)
    opened(reader, folder, *MAY)
    said = reader.tell("document.body.innerText")
    tally.holds("without a script", said, "Accepted", "The walker needs the browser's script", "What the places hold", "core: answer 0 none 0 nodes 9")
    shown_ = reader.tell("[Array.from(document.querySelectorAll('.tank .count b')).map(b => b.innerText), Array.from(document.querySelectorAll('#walk button, #walk input')).filter(e => e.getClientRects().length).length]")
    tally.same("without a script: the start, and nothing to press", shown_, [["0", "1", "0", "0", "0"], 0])
    reader.call("Emulation.setScriptExecutionDisabled", value=False)


def looks(tally, folder, reader):
    """On a phone nothing is wider than the screen and what is pressed is large enough; dark is dark; on paper all is open and nothing is to be pressed."""
    for what, arguments, status in (("May", MAY, 0), ("July", [*JULY, "--times", DURATIONS], 0), ("evil", ["evil.net", "evil.sheet", "evil.log"], 0), ("large", ["large.net", "large.sheet"], 0), ("wide", ["wide.net", "wide.sheet"], 0), ("refused", ["x.net", "torn.sheet"], 1)):
        reader.size(390, 844, phone=True)
        opened(reader, folder, *arguments, status=status)
        tally.same(f"{what} on a phone: no wider than it", reader.tell("document.documentElement.scrollWidth"), 390)
        over = reader.tell("(boxes => boxes.filter((a, i) => boxes.some((b, j) => i < j && a.left + 1 < b.right && b.left + 1 < a.right && a.top + 1 < b.bottom && b.top + 1 < a.bottom)).length)(Array.from(document.querySelectorAll('.tank .name, .tank .count, .tank .track, #walk button')).filter(seen).map(e => e.getBoundingClientRect()))")
        tally.same(f"{what} on a phone: nothing over another thing", over, 0)
        small = reader.tell("Array.from(document.querySelectorAll('section:not(#log) button, input')).filter(b => b.getBoundingClientRect().height < 44).map(b => b.innerText)")
        tally.same(f"{what} on a phone: large enough for a finger", small, [])
        pictures = reader.tell("Array.from(document.querySelectorAll('.picture svg')).filter(seen).map(s => s.getAttribute('class').split(' ')[0])")
        tally.same(f"{what} on a phone: pictures go downwards", set(pictures), {"down"})
    reader.size(390, 844, phone=True)
    opened(reader, folder, *MAY)
    reader.click('.sheet .down .box[data-box="1"]')
    tally.same("on a phone the picture is walked by a finger", (shown(reader)["node"], shown(reader)["lit"]), ("berthed", ["berthed"]))
    reader.size(900, 1200)
    opened(reader, folder, *MAY)
    found = reader.tell("Array.from(document.querySelectorAll('.picture svg')).filter(seen).map(s => [s.getAttribute('class'), s.getBoundingClientRect().width / s.viewBox.baseVal.width])")
    tally.check("on a tablet pictures are folded rather than small", [kind for kind, _ in found][0] == "printed" and all(share > 0.7 for _, share in found), found)
    tally.holds("and that is told", reader.tell("document.getElementById('sheet').innerText"), "An arrow that is cut goes on where its number stands again.")
    reader.size(1280, 900)
    without_script(tally, folder, reader)
    opened(reader, folder, *MAY)
    bright = "(c => c.match(/[0-9.]+/g).slice(0, 3).reduce((a, b) => a + Number(b), 0) / 3)(getComputedStyle(%s).%s)"
    for scheme, low, high in (("light", 200, 256), ("dark", 0, 60)):
        reader.colours(scheme)
        values = [reader.tell(bright % (f"document.querySelector('{one}')", what)) for one, what in (("body", "backgroundColor"), ("section", "backgroundColor"), (".sheet .node:not(.here) rect", "fill"))]
        tally.check(f"{scheme} is {scheme}", all(low <= value < high for value in values), values)
        contrast = reader.tell(bright % ("document.body", "color")) - reader.tell(bright % ("document.body", "backgroundColor"))
        tally.check(f"{scheme}: the text stands out", abs(contrast) > 150, contrast)
    reader.colours("dark", "print")
    hidden = reader.tell("Array.from(document.querySelectorAll('#walk button, input, summary')).filter(e => e.getClientRects().length).length")
    tally.same("on paper: nothing to press, and light", (hidden, reader.tell(bright % ("document.body", "backgroundColor"))), (0, 255))
    reader.colours("light")
    reader.tell("window.opened = 0; addEventListener('beforeprint', () => { opened = document.querySelectorAll('details[open]').length; }); 1")
    reader.printed(os.path.join(folder, "page.pdf"))
    tally.same("on paper: all is open, and closed again after it", reader.tell("[opened, document.querySelectorAll('details[open]').length]"), [2, 0])
    with open(os.path.join(folder, "page.pdf"), "rb") as file:
        tally.check("on paper", file.read(5) == b"%PDF-")
