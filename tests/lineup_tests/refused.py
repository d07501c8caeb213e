"""Refusals: the number and position found again are the core's on generated damage, every number is met and explained with names."""
import re
from collections import Counter

import generated
from lineup import core, explain, faults, mending, netfile, sheetfile, words
from lineup.commands import mend, replay
from lineup.inputs import Source
from lineup.pair import Pair
from lineup.refusals import REFUSALS


def run(tally):
    cases = list(generated.damaged(3, 2200))
    checked = core.ask(*(core.check(net.words, sheet.words) for net, sheet, _ in cases))
    met = Counter()
    for i, ((net, sheet, record), answer) in enumerate(zip(cases, checked)):
        met[answer.number] += 1
        told(tally, f"case {i}", net, sheet, answer)
        small = len(sheet.words) < 1500 or i % 5 == 0  # the largest take most of the time
        if answer.number and net.model and sheet.model and small:
            as_text(tally, f"case {i} as text", net, sheet, answer)
    runs(tally, [(net, sheet, record) for (net, sheet, record), answer in zip(cases, checked) if record is not None and not answer.number], met)
    replays(tally, list(generated.logged(5, 4000)), met)
    mendings(tally, list(generated.stale(9, 5000)), met)
    tally.same("numbers met", sorted(met), [*range(18), 20, *range(23, 28)])
    for number in REFUSALS:
        tally.check(f"{number} has its word, meaning and remedy", all(REFUSALS[number]))
    nets_alone(tally, cases)
    too_large(tally)


def told(tally, what, net, sheet, answer, record=None, log=None, judged=faults.sheet_fault):
    """The fault found again is the core's, and a refusal is told without the words for nothing."""
    fault = explain.again(net, sheet, record, log, judged) or faults.Fault(0)
    tally.same(f"{what}: {answer.line}", tuple(fault), answer.fault())
    if not answer.number:
        return None
    found = explain.explain(answer, net, sheet, record, log, judged)
    tally.check(f"{what}: told", found.lines and not re.search("None|Counter|dict|<", " ".join(found.lines)), found.lines)
    return found


def as_text(tally, what, net, sheet, answer, judged=faults.sheet_fault):
    """The same through the text: the words are the same, and the refusal has a line that names what is at fault."""
    if 0 in net.model.start.values():
        return  # no text says it: a place that starts with 0 has no entry
    written = netfile.write(net.model), None
    over = netfile.read("x.net", written[0])
    written = written[0], sheetfile.write(over, sheet.model)
    one, other = Source("x.net", "text"), Source("x.sheet", "text")
    one.model, other.model = over, sheetfile.read("x.sheet", written[1], over)
    one.words, other.words = words.net_words(over), words.sheet_words(over, other.model)
    tally.same(f"{what}: words", (one.words, other.words), (net.words, sheet.words))
    found = explain.explain(answer, one, other, judged=judged)
    text = written[0 if found.source is one else 1].split("\n")
    tally.check(f"{what}: has a line", found.where and 1 <= found.where[0] <= len(text) and found.where[1] <= len(text[found.where[0] - 1]), found.where)


def runs(tally, cases, met):
    answers = core.ask(*(core.run(net.words, sheet.words, record) for net, sheet, record in cases))
    for i, ((net, sheet, record), answer) in enumerate(zip(cases, answers)):
        met[answer.number] += 1
        found = told(tally, f"run {i}", net, sheet, answer, record)
        if found:
            tally.holds(f"run {i}: the firing", found.lines[0], f"firing {answer.index + 1} of {len(record)}")


def replays(tally, cases, met):
    """Logs, most of them over sheets that are accepted: what is refused, and the sums of the rest."""
    answers = core.ask(*(core.replay(net.words, sheet.words, log.words) for net, sheet, log in cases))
    for i, ((net, sheet, log), answer) in enumerate(zip(cases, answers)):
        met[answer.number] += 1
        found = told(tally, f"replay {i}", net, sheet, answer, log=log)
        if answer.kind == "record":
            tally.holds(f"replay {i}: the firing", found.lines[0], f"firing {answer.index + 1} of {log.words[0]}")
        if not answer.number:
            sums = [replay.summed(log, rows, len(net.model.places)) for rows in (net.model.taken, net.model.put)]
            tally.same(f"replay {i}: {answer.line}", (answer.outs, [answer.own["taken"], answer.own["put"]]), (sums, list(map(sum, sums))))


def mendings(tally, cases, met):
    """Sheets to mend: what is refused, with a line of the text at fault, and of the rest the counts and what changed."""
    answers = core.ask(*(core.mend(net.words, sheet.words) for net, sheet in cases))
    whats = Counter()
    for i, ((net, sheet), answer) in enumerate(zip(cases, answers)):
        met[answer.number] += 1
        found = told(tally, f"mending {i}", net, sheet, answer, judged=mending.mend_fault)
        tally.check(f"mending {i}: {answer.line}", answer.number not in (10, 14, 15, 27))
        small = len(sheet.words) < 1500 or i % 5 == 0
        if answer.number == 25:
            what = mending.worked_out(net.model, sheet.model)[1].what
            whats[what] += 1
            if small and what != "entries":
                as_text(tally, f"mending {i} as text", net, sheet, answer, judged=mending.mend_fault)
                tally.holds(f"mending {i}: the firings", " ".join(found.lines), "is reached by", *(["but it can hold at most"] if what == "overfull" else []))
        if not answer.number:
            mended, changes = mend.held_to(net.model, sheet.model, answer)
            applied(tally, f"mending {i}", net.model, sheet.model, mended, changes)
    tally.same("reasons met", sorted(whats), ["count", "entries", "overfull", "starved", "unequal"])


def applied(tally, what, net, sheet, mended, changes):
    """The changes make the given counts the mended ones, and the core accepts these."""
    counts = [dict(held) for held in sheet.counts]
    for n, p, given, new in changes:
        tally.same(f"{what}: given", counts[n].get(p, 0), given)
        counts[n][p] = new
    tally.same(f"{what}: applied", [{p: count for p, count in held.items() if count} for held in counts], mended.counts)
    both = words.net_words(net), words.sheet_words(net, mended)
    checked, again = core.ask(core.check(*both), core.mend(*both))
    tally.same(f"{what}: accepted, and mended to itself", (checked.number, again.written), (0, [both[1], [0]]))


def nets_alone(tally, cases):
    answers = core.ask(*(core.net_check(net.words) for net, _, _ in cases[:600]))
    for i, ((net, _, _), answer) in enumerate(zip(cases, answers)):
        told(tally, f"net {i}", net, None, answer)


def too_large(tally):
    """Texts that pass the reader and that the core refuses for their size or their numbers."""
    many = "".join(f"tr t{i} -> p{i}\n" for i in range(33))
    judged(tally, "33 places", many, "n:\n", 2, 33)
    judged(tally, "no place", "tr t\n", "n:\n", 2, None)
    judged(tally, "weight 0", "tr a -> p\ntr b p*0 ->\n", "n:\n", 4, 2)
    judged(tally, "weight too large", "pl p (1000000001)\ntr a -> p\n", "n:\n", 4, 1)
    judged(tally, "capacity 0", "tr a -> p\npl p <= 0\n", "n:\n", 4, 2)
    judged(tally, "overfull start", "tr a -> p\npl q (1) <= 1\npl p (2) <= 1\n", "n:\n", 26, 3)
    judged(tally, "overfull start before no source", "pl p (2) <= 1\ntr b p ->\n", "n:\n", 26, 1)
    judged(tally, "no source", "tr b p ->\n", "n:\n", 5, 1)
    judged(tally, "129 nodes", "tr a\npl p\n", "".join(f"n{i}:\n" for i in range(129)), 7, 129)
    judged(tally, "no node", "tr a\npl p\n", "# nothing\n", 7, None)
    judged(tally, "count 0", "tr a\npl p\n", "n: p*0\n  a -> n\n", 9, 1)
    judged(tally, "count too large", "tr a\npl p\n", "n: p*4294967295\n  a -> n\n", 9, 1)


def judged(tally, what, net, sheet, number, line):
    one, other = Source("x.net", "text"), Source("x.sheet", "text")
    one.model = netfile.read("x.net", net)
    other.model = sheetfile.read("x.sheet", sheet, one.model)
    one.words, other.words = words.net_words(one.model), words.sheet_words(one.model, other.model)
    both = Pair(one, other)
    report = both.refusal(both.ask(core.check)[0])
    refusal = report.data["refusal"]
    tally.same(what, (report.status, refusal["number"], refusal["line"]), (1, number, line))
