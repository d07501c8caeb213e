"""A refusal in the words of the planner: what is wrong, where it stands, what to do. The number and the position are the core's."""
from lineup import explain_log, explain_mending, explain_schedule, explain_times, explain_words, fault_keys, faults, reacting
from lineup.refusals import BAD_DURATION, ENDLESS, NO_COUNTS, OF_LOG, OF_NET, OF_RECORD, OF_WORDS, REFUSALS


class Explanation:
    """The source at fault with the line and column, the sentences that tell the fault, and what a picture marks: nodes, arcs, places."""

    def __init__(self, answer, source, where, lines, marks=None):
        self.number, self.source, self.where = answer.number, source, where
        self.lines, self.marks = lines, marks or {}
        self.word, _, self.remedy = REFUSALS[answer.number]
        self.keys = dict(fault_keys.NONE)  # the same for programs

    def title(self):
        return f"refused, {self.number} {self.word}"


class Disagreement(Exception):
    """What was found again beside the core is not what the core answers. One of the two is wrong, and the core is proved."""


def again(net, sheet, record=None, log=None, judged=faults.sheet_fault, times=None):
    """The first fault, found from the same words beside the core; `judged` finds what the call asks of a sheet."""
    fault = faults.Fault(1) if net.tail else faults.net_fault(net.words)
    if fault or sheet is None:
        return fault
    fault = faults.Fault(6) if sheet.tail else judged(net.words, sheet.words)
    if not fault and times is not None:
        return reacting.duration_fault(times.words, len(net.model.transitions)) or reacting.loop_fault(net.model, sheet.model)
    if fault or record is None and log is None:
        return fault
    return faults.record_fault(sheet.model, record) if log is None else faults.log_fault(sheet.model, log.words)


def agree(answer, net, sheet, record=None, log=None, judged=faults.sheet_fault, times=None):
    """Holds the core's answer to the fault found again."""
    found = again(net, sheet, record, log, judged, times) or faults.Fault(0)
    if tuple(found) != answer.fault():
        told = f"{found.number} {found.kind} {found.index}"
        raise Disagreement(f"the core answers {answer.line!r}, and the explanation finds {told}")


def explain(answer, net, sheet, record=None, log=None, judged=faults.sheet_fault, times=None):
    """The explanation of a refusal."""
    agree(answer, net, sheet, record, log, judged, times)
    return told(answer, net, sheet, record, log, times)


def told(answer, net, sheet, record=None, log=None, times=None):
    """A fault in words, whoever found it."""
    found = sentences(answer, net, sheet, record, log, times)
    found.keys.update(fault_keys.of(answer, net, sheet, record, log))
    return found


def sentences(answer, net, sheet, record, log, times):
    if answer.number in OF_NET:
        return Explanation(answer, net, *explain_words.net_fault(answer, net))
    if answer.number in OF_WORDS:
        return Explanation(answer, sheet, *explain_words.sheet_fault(answer, net, sheet))
    if log is not None and answer.number in OF_LOG:
        return Explanation(answer, log, *explain_log.log_fault(answer, net.model, sheet.model, log))
    if answer.number == NO_COUNTS:
        return Explanation(answer, sheet, *explain_mending.no_counts(net.model, sheet))
    if answer.number == BAD_DURATION:
        return Explanation(answer, times, *explain_times.bad_duration(answer, net.model, times))
    if answer.number == ENDLESS:
        return Explanation(answer, sheet, *explain_times.endless(answer, net.model, sheet))
    if answer.number in OF_RECORD:
        return Explanation(answer, sheet, *explain_schedule.record_fault(answer, net.model, sheet, record))
    return Explanation(answer, sheet, *explain_schedule.FAULTS[answer.number](answer.index, net.model, sheet))
