"""A sheet that a command has changed: to a file, to standard output with remarks in front, or as a unified diff. A text keeps what does not change."""
from lineup import core, outputs, sheetfile, words
from lineup.explain import Disagreement
from lineup.sheet_patch import Patch
from lineup.visible import inline


def arguments(parser):
    parser.add_argument("--diff", action="store_true", help="tell what changes in the sheet as a unified diff, and not the whole sheet")


class Rewritten:
    """The text of a sheet before and after. `data` is what -o writes."""

    def __init__(self, before, after, data):
        self.before, self.after, self.data = before, after, data

    def diff(self, old, new):
        """A unified diff; empty where nothing changes."""
        import difflib  # slow to load, and seldom needed

        lines = [[line + "\n" for line in text.split("\n")] for text in (self.before, self.after)]
        for side in lines:
            if side[-1] == "\n":
                side.pop()  # nothing follows the last line's end
            else:
                side[-1] += "\\ No newline at end of file\n"
        return "".join(difflib.unified_diff(*lines, old, new))


def of(both, changed, patch, written, renumbered=False):
    """The sheet of a pair as `changed`: a text patched by `patch`, any other source written anew. The text has to say what the core has `written`,
    or a sheet with the same short form if nodes are `renumbered`."""
    net, source = both.net.model, both.sheet
    if source.form != "text":
        after = sheetfile.write(net, changed)
        return Rewritten(sheetfile.write(net, source.model), after, outputs.marked(after))
    text = Patch(source, net)
    patch(text)
    after = text.text()
    said = words.sheet_words(net, sheetfile.read(source.path, after.lstrip("\ufeff"), net))
    if renumbered and said[0] == written[0]:  # as many nodes
        said = core.ask(core.short(both.net.words, said))[0].written[0]
    if said != written:
        raise Disagreement("the text as it was patched does not say what the core wrote")
    return Rewritten(text.given, after, source.data if after == text.given else outputs.marked(after if after.endswith("\n") else after + "\n"))


def told(report, found, remarks, args, path, indent="  "):
    """The report with the sheet: remarks for people, and the text where it is wanted."""
    report.data["sheet"] = found.after
    lines = [remarks[0], *(indent + line for line in remarks[1:]), *report.lines]
    if args.diff:
        report.data["diff"] = found.diff(path, args.output or path)
        lines += shown(report.data["diff"])
    if args.output:
        outputs.write(args.output, found.data)
        lines.append(f"written: {inline(args.output)}")
    elif not args.diff:
        lines = [*(f"# {line}" for line in [*remarks, *(line.strip() for line in report.lines)]), *shown(found.after)]
    report.lines = lines
    return report


def shown(text):
    """Lines for a terminal, on which a tab is blanks."""
    lines = [line.rstrip("\r").expandtabs() for line in text.lstrip("\ufeff").split("\n")]
    return lines[:-1] if lines[-1] == "" else lines
