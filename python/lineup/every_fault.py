"""Every fault that stands by itself, of a net or a sheet of which the core names the first; and those that may be gone with another one."""
import copy

from lineup import causes, explain, faults, mendable
from lineup.explain import Disagreement
from lineup.faults import Fault
from lineup.refusals import OF_NET, OF_WORDS, REFUSALS
from lineup.report import REFUSED, Report, fault_data, plural
from lineup.trouble import place
from lineup.visible import inline


def refusal(both, answer):
    """The report of a refusal by the core, with all faults. The first has to be the core's."""
    found = of(both.net, both.sheet)
    if not found or tuple(found[0]) != answer.fault():
        raise Disagreement(f"the core answers {answer.line!r}, and the first fault found is {tuple(found[0]) if found else 'none'}")
    apart = going_with(found, both.sheet)
    sheet = both.sheet and without_zeros(both.sheet)
    told = [explain.told(fault, both.net, both.sheet if fault.number < 10 else sheet) for fault in found]
    advice = (causes.likely(both.net, both.sheet) if answer.number in OF_NET | OF_WORDS else []) + mendable.advice(both, answer)
    report = Report(REFUSED, accepted=False, refusal=fault_data(answer, told[0], advice), faults=[])
    for i, (fault, one) in enumerate(zip(found, told)):
        report.data["faults"].append({**fault_data(fault, one), "verdict": i == 0, "goes_with_another": fault in apart})
    own = [pair for pair in zip(found, told) if pair[0] not in apart]
    report.say(f"{inline(told[0].source.path)}: refused, {plural(len(own), 'fault')}" + (" that stand by themselves; the core's verdict is the first" if len(own) > 1 else ""))
    seen = set()
    for fault, one in own:
        mark = "  <- the core's verdict" if fault is found[0] else ""
        report.say(f"  {place(one.source.path, *(one.where or ()))}{one.number} {one.word}{mark}", *(f"    {line}" for line in one.lines))
        if one.number not in seen:
            report.say(f"    to do: {one.remedy[0].lower()}{one.remedy[1:]}")
        seen.add(one.number)
    report.say(*with_others(apart, sheet), *(f"  {line}" for line in advice), *unseen(both, found))
    return report.quote(answer)


def of(net, sheet):
    """All faults, in the order in which the core asks. What cannot be read hides what comes after it, and so does a net at fault."""
    found = of_net(net)
    return found if found or sheet is None else of_sheet(net, sheet)


def of_net(net):
    size = Fault(1) if net.tail else faults.net_sizes(net.words)
    if size:
        return [size]
    found = of_entries(faults.net_entry_faults(net.words))
    if any(fault.number == 3 for fault in found):
        return found
    model = faults.named_by_number(net.words)
    found += [Fault(26, "place", p) for p in model.overfull(model.start)[:1]]  # of which one explanation tells all places, as of 10
    return found + ([] if model.sources() else [Fault(5)])


def of_sheet(net, sheet):
    size = Fault(6) if sheet.tail else faults.sheet_sizes(sheet.words)
    if size:
        return [size]
    found = of_entries(faults.sheet_entry_faults(net.words, sheet.words))
    if not sheet.model:
        return found
    start, *others = faults.CHECKS
    model = without_zeros(sheet).model
    return [*found, *list(start(net.model, model))[:1], *(fault for check in others for fault in check(net.model, model))]


def of_entries(found):
    """Without the values of entries whose key is at fault: who knows what they are about."""
    found = list(found)
    keys = {fault.index for fault in found if fault.number in (3, 8)}
    return [fault for fault in found if fault.number in (3, 8) or fault.index not in keys]


def without_zeros(source):
    """A sheet that can be read, in which a count that is written as 0 is none."""
    if not source.model:
        return source
    clean = copy.copy(source)
    clean.model = copy.copy(source.model)
    clean.model.counts = [{p: count for p, count in counts.items() if count} for counts in source.model.counts]
    return clean


def going_with(found, sheet):
    """The faults that may be gone with another: 5 with a weight, 13 with the choice of the first node, 17 with that of a node which follows."""
    torn = {fault.index for fault in found if fault.number in (11, 12)}
    gone = [fault for fault in found if fault.number == 5 and found[0].number == 4]
    gone += [fault for fault in found if fault.number == 13 and 0 in torn]
    return gone + [fault for fault in found if fault.number == 17 and torn & sheet.model.reached([fault.index])]


def with_others(apart, sheet):
    """A line for each number."""
    lines = []
    for number in sorted({fault.number for fault in apart}):
        nodes = [fault.index for fault in apart if fault.number == number and fault.kind == "node"]
        at = f" at {sheet.model.listed(nodes)}" if nodes else ""
        lines.append(f"  {number} {REFUSALS[number].word}{at} may be gone with these")
    return lines


def unseen(both, found):
    """What was not looked at."""
    if found[0].number in OF_NET and both.sheet:
        return ["  the sheet is looked at when the net is right"]
    return ["  the rest is looked at when the words can be read"] if found[0].number in (6, 7) or both.sheet and not both.sheet.model else []
