"""lineup help: the usage of lineup or of a command; or what a refusal means, by its number, as lineup explain tells it."""
from lineup.commands import explain
from lineup.report import Report
from lineup.trouble import Trouble, suggestion
from lineup.visible import quoted

SUMMARY = "tell the usage of a command, or what a refusal means, by its number"
EXAMPLE = "lineup help 15"


def arguments(parser):
    parser.add_argument("topic", metavar="COMMAND or NUMBER", nargs="?", help="a command, or the number or word of a refusal; without any, the usage of lineup")


def main(args):
    from lineup import cli  # which reads this module

    top, modules = cli.parser()
    if args.topic is None:
        return usage(top)
    if args.topic in modules:
        return usage(cli.command(top, args.topic))
    words = {refusal.word for refusal in explain.REFUSALS.values()}
    if args.topic in words or args.topic.isascii() and args.topic.isdigit():
        return explain.told([explain.number_of(args.topic)])
    raise Trouble(f"no command and no refusal {quoted(args.topic)}" + suggestion(args.topic, [*modules, *words]) + " (lineup help lists the commands, lineup explain the refusals)")


def usage(parser):
    text = parser.format_help()
    return Report(usage=text).say(*text.split("\n")[:-1])
