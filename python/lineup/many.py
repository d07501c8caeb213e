"""Many sheets of one net: the core's verdict on each in a line, and a sum."""
from lineup import core, inputs, streams
from lineup.explain import explain
from lineup.pair import Pair
from lineup.progress import Bar
from lineup.refusals import OF_NET
from lineup.report import ACCEPTED, REFUSED, TROUBLE, Report, plural, refused
from lineup.trouble import Trouble
from lineup.visible import inline


def checked(net_path, paths):
    """The report on sheets, for all of which the core's program is started once. A sheet that cannot be read keeps no other from being judged."""
    net = inputs.net(net_path)
    if net.tail:
        return of_net(net, Pair(net, None).ask(core.net_check)[0])
    with Bar(2 * len(paths)) as bar:
        pairs = [bar.after(read, net, path) for path in paths]
        answers = asked(pairs)
        about_net = [answer for answer in answers if answer is not None and answer.number in OF_NET]
        if about_net:
            return of_net(net, about_net[0])
        found = [bar.after(judged, path, both, answer) for path, both, answer in zip(paths, pairs, answers)]
    for trouble in pairs:
        if isinstance(trouble, Trouble):
            streams.tell(f"lineup: {trouble}\n")
    return summed(found)


def read(net, path):
    """A pair, or the trouble with a sheet."""
    try:
        return Pair(net, inputs.sheet(path, net))
    except Trouble as trouble:
        return trouble


def asked(pairs):
    """The core's answer for each pair, nothing for trouble. Bytes that are not whole words are asked about one by one."""
    is_whole = [isinstance(both, Pair) and not both.tail() for both in pairs]
    answers = iter(core.ask(*(core.check(*both.words()) for both, whole in zip(pairs, is_whole) if whole)))
    return [next(answers) if whole else both.ask(core.check)[0] if isinstance(both, Pair) else None for both, whole in zip(pairs, is_whole)]


def judged(path, both, answer):
    """The report on one sheet."""
    if isinstance(both, Trouble):
        report = Report(TROUBLE, sheet=path, accepted=None)
        report.data["trouble"] = {"message": both.message, "file": both.path, "line": both.line, "column": both.column}
        return report.say(f"{inline(path)}: not read")
    if answer.number:
        told = refused(explain(answer, both.net, both.sheet), answer)
        report = Report(REFUSED, sheet=path, **told.data)
        found = answer.line.split(" nodes ")[0]  # what follows are the numbers of a sheet that is accepted
        return report.say(f"{told.lines[0]}: {told.lines[1].strip()} (core: {found})")
    both.agree(answer)
    report = Report(ACCEPTED, sheet=path, accepted=True, **answer.own, core=[answer.line])
    return report.say(f"{inline(both.sheet.path)}: accepted (core: {answer.line})")


def of_net(net, answer):
    """A net that is refused, whatever the sheets."""
    report = refused(explain(answer, net, None), answer)
    report.data["sheets"] = []
    return report.say("no sheet was judged: the net is refused")


def summed(found):
    counts = {status: sum(report.status == status for report in found) for status in (ACCEPTED, REFUSED, TROUBLE)}
    report = Report(max(status for status in counts if counts[status]), accepted=counts[ACCEPTED] == len(found))
    report.data["sum"] = {"sheets": len(found), "accepted": counts[ACCEPTED], "refused": counts[REFUSED], "not_read": counts[TROUBLE]}
    report.data["sheets"] = [one.data for one in found]
    report.data["core"] = [line for one in found for line in one.data.get("core", [])]
    report.say(*(line for one in found for line in one.lines))
    unread = f", {counts[TROUBLE]} not read" if counts[TROUBLE] else ""
    return report.say(f"{plural(len(found), 'sheet')}: {counts[ACCEPTED]} accepted, {counts[REFUSED]} refused{unread}")
