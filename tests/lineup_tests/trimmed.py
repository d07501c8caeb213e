"""Trimming: over generated sheets, accepted or not, the fault and the nodes kept are the core's, the rest allows what the sheet allowed, and nothing of it is left to drop."""
from collections import Counter

import generated
from lineup import core, explain, faults, words
from lineup.commands import trim
from lineup.parting import parting


def run(tally):
    cases = list(generated.unreached(17, 6000))
    answers = core.ask(*(core.trim(net.words, sheet.words) for net, sheet in cases))
    met, wrote = Counter(), []
    for i, ((net, sheet), answer) in enumerate(zip(cases, answers)):
        met[answer.number] += 1
        fault = explain.again(net, sheet, judged=faults.words_fault) or faults.Fault(0)
        tally.same(f"case {i}: {answer.line}", tuple(fault), answer.fault())
        if answer.number:
            lines = explain.explain(answer, net, sheet, judged=faults.words_fault).lines
            tally.check(f"case {i}: told", lines and "None" not in " ".join(lines), lines)
            continue
        trimmed, kept = trim.held_to(net.model, sheet.model, answer)
        met["all" if len(kept) == len(sheet.model.nodes) else "some"] += 1
        tally.same(f"case {i}: names", trimmed.nodes, [sheet.model.nodes[n] for n in kept])
        tally.same(f"case {i}: allows the same", parting(sheet.model, trimmed), None)
        wrote.append((i, net, sheet, trimmed))
    again(tally, wrote, met)
    expected = [*range(10), 26, "all", "some", "accepted now"]
    tally.same("numbers and sorts met", [number for number in expected if not met[number]], [])


def again(tally, wrote, met):
    """Trimmed once more a sheet stays as it is; the core's check finds in it what it finds in the kept nodes, and never a stray one."""
    calls = [call(net.words, words.sheet_words(net.model, trimmed)) for _, net, _, trimmed in wrote for call in (core.trim, core.check)]
    answers, before = core.ask(*calls), core.ask(*(core.check(net.words, sheet.words) for _, net, sheet, _ in wrote))
    for (i, net, _, trimmed), twice, checked, first in zip(wrote, answers[::2], answers[1::2], before):
        tally.same(f"case {i}: once more", twice.written, [words.sheet_words(net.model, trimmed), list(range(len(trimmed.nodes)))])
        tally.check(f"case {i}: no stray node", checked.number != 16, checked.line)
        if first.number == 0:
            tally.same(f"case {i}: stays accepted", checked.number, 0)
        met["accepted now"] += first.number == 16 and checked.number == 0
