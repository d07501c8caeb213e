"""lineup completion: a script by which a shell completes commands and options, made from what the commands take."""
from lineup import completing
from lineup.report import Report

SUMMARY = "print a script by which bash or zsh completes commands and options"
EXAMPLE = "lineup completion bash"


def arguments(parser):
    parser.add_argument("shell", metavar="SHELL", choices=sorted(completing.SHELLS), help="bash or zsh")


def main(args):
    from lineup import cli  # which reads this module

    text = completing.SHELLS[args.shell](completing.offers(*cli.parser()))
    return Report(completion=text).say(*text.split("\n")[:-1])
