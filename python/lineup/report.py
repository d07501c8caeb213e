"""What a command has to say: an exit status, lines for people and data for programs; and the parts that several commands share."""
from lineup.trouble import place

ACCEPTED, REFUSED, TROUBLE = 0, 1, 2


class Report:
    def __init__(self, status=ACCEPTED, **data):
        self.status, self.data, self.lines = status, data, []

    def say(self, *lines):
        self.lines += lines
        return self

    def quote(self, *answers, whole=False, of=""):
        """Quotes the core."""
        for answer in answers:
            line = answer.whole if whole else answer.line
            self.data.setdefault("core", []).append(line)
            self.lines.append(f"  core: {of}{line}")
        return self


def refused(explanation, answer, likely=()):
    """The report of a refusal."""
    report = Report(REFUSED, accepted=False)
    report.data["refusal"] = fault_data(answer, explanation, likely)
    report.say(place(explanation.source.path, *(explanation.where or ())) + explanation.title())
    report.say(*(f"  {line}" for line in [*explanation.lines, *likely]))
    report.say(f"  to do: {explanation.remedy[0].lower()}{explanation.remedy[1:]}")
    return report.quote(answer)


def fault_data(fault, explanation, likely=()):
    """A fault for programs."""
    line, column = explanation.where or (None, None)
    return {
        "number": fault.number,
        "word": explanation.word,
        "position": {"kind": fault.kind, "index": fault.index},
        **explanation.keys,
        "file": explanation.source.path,
        "line": line,
        "column": column,
        "why": [*explanation.lines, *likely],
        "remedy": explanation.remedy,
    }


def plural(count, what):
    return f"{count} {what}{'' if count == 1 else 's'}"
