"""The command line: which command, with what; its report as text or JSON; the exit status."""
import argparse
import importlib

from lineup import colour, commands, outputs, streams
from lineup.explain import Disagreement
from lineup.report import ACCEPTED, TROUBLE
from lineup.trouble import Trouble, suggestion
from lineup.visible import inline, quoted, visible

DESCRIPTION = "Names, explanations, comparison and pictures around the proved checker of line-up schedules."
STATUS = "Exit status: 0 accepted, the same or found, 1 refused, different or not found, 2 trouble, which is told on standard error."


class Parser(argparse.ArgumentParser):
    def error(self, message):
        raise Trouble(f"{inline(message)} ({self.prog} --help tells the usage)")

    def print_help(self, file=None):
        streams.write(self.format_help())


def parser():
    """The parser and the modules of the commands."""
    modules = {name: importlib.import_module(f"lineup.commands.{name}") for name in commands.NAMES}
    plain = {"formatter_class": argparse.RawDescriptionHelpFormatter, "allow_abbrev": False}
    examples = "".join(f"  {module.EXAMPLE}\n" for module in modules.values())
    top = Parser(prog="lineup", description=DESCRIPTION, epilog=f"examples:\n{examples}\n{STATUS}", **plain)
    top.add_argument("--version", action="store_true", help="tell the version, the commit and the kit, and end")
    parts = top.add_subparsers(dest="command", metavar="COMMAND")
    for name, module in modules.items():
        about = module.__doc__.split(": ", 1)[1]
        epilog = f"example:\n  {module.EXAMPLE}\n\nA - in place of a file is standard input. {STATUS}"
        part = parts.add_parser(name, help=module.SUMMARY, description=about[0].upper() + about[1:], epilog=epilog, **plain)
        module.arguments(part)
        part.add_argument("-o", dest="output", metavar="FILE", help=getattr(module, "OUTPUT", "write to FILE instead of standard output"))
        part.add_argument("--force", action="store_true", help="with -o: write over a file that is there and that lineup did not write, or somebody has changed since")
        part.add_argument("--strict", action="store_true", help="end with 2 where a remark on what is read would be made, as on a place that has no line of its own though others have")
        part.add_argument("--json", action="store_true", help="write the result as JSON")
    return top, modules


def run(argv):
    """Makes a command's report and writes it; answers the exit status."""
    top, modules = parser()
    if argv and not argv[0].startswith("-") and argv[0] not in modules:
        raise Trouble(f"no command {quoted(argv[0])}" + suggestion(argv[0], modules) + " (lineup --help lists them)")
    args = top.parse_args(argv)
    if args.version:
        from lineup import version

        streams.write(version.told() + "\n")
        return ACCEPTED
    if not args.command:
        top.print_help()
        return TROUBLE
    outputs.begin(args.force)
    streams.begin(args.strict)
    report = modules[args.command].main(args)
    text = as_json(report.data) if args.json else "".join(f"{line}\n" for line in report.lines)
    if args.output and not getattr(modules[args.command], "OUTPUT", None):
        outputs.write(args.output, visible(text))
    elif text:
        streams.write(text, paint=None if args.json else colour.report(args.command, report))
    return report.status


def command(top, name):
    """The parser of a command."""
    return next(action for action in top._actions if isinstance(action, argparse._SubParsersAction)).choices[name]


def as_json(data):
    import json

    return json.dumps(data, indent=2).replace("\x7f", "\\u007f") + "\n"  # the one character that JSON lets through and a terminal obeys


def told(trouble, argv):
    """A trouble as text, and as JSON too where that was asked for."""
    streams.tell(f"lineup: {trouble}\n")
    if "--json" in argv:
        found = trouble if isinstance(trouble, Trouble) else Trouble(trouble)
        try:
            streams.write(as_json({"trouble": {"message": found.message, "file": found.path, "line": found.line, "column": found.column}}))
        except (Trouble, BrokenPipeError):
            pass  # the status tells it
    return TROUBLE


def main(argv):
    streams.prepare()
    try:
        return run(argv)
    except Trouble as trouble:
        return told(trouble, argv)
    except Disagreement as found:
        return told(f"DISAGREEMENT: {found}. The core's answer stands; lineup has misread something and says no more. Please report this.", argv)
    except (BrokenPipeError, KeyboardInterrupt):
        return TROUBLE
    except Exception:  # a defect must not end as status 1, which says `refused`
        import traceback

        return told("a defect of lineup, please report it:\n" + traceback.format_exc(), argv)
