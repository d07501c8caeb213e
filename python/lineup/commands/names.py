"""lineup names: nets and sheets, from words or any other form, as text with names."""
from lineup import netfile, outputs, pnml, sheetfile
from lineup.pair import readable
from lineup.report import Report
from lineup.visible import inline

SUMMARY = "write a net, and a sheet, as text with names, or the net as PNML"
EXAMPLE = "lineup names samples/jetty -o jetty"
OUTPUT = "write FILE.net and FILE.sheet, with --pnml FILE.pnml"
SUFFIXES = (".net", ".sheet", ".pnml")


def arguments(parser):
    parser.add_argument("net", metavar="NET", help="a net, or a folder with net and sheet as words")
    parser.add_argument("sheet", metavar="SHEET", nargs="?", help="a sheet")
    parser.add_argument("--pnml", action="store_true", help="write the net alone, as PNML (ISO/IEC 15909-2)")


def main(args):
    both, refusal = readable(args.net, args.sheet)
    if refusal:
        return refusal
    net, sheet = both.net.model, both.sheet and both.sheet.model
    if args.pnml:
        texts = {".pnml": pnml.write(net)}
    else:
        texts = {".net": netfile.write(net)}
        texts.update({".sheet": sheetfile.write(net, sheet)} if sheet else {})
    report = Report(**{suffix[1:]: text for suffix, text in texts.items()})
    if not args.output:
        return report.say(*"\n".join(texts.values()).splitlines())
    stem = next((args.output[: -len(suffix)] for suffix in SUFFIXES if args.output.endswith(suffix)), args.output)
    report.data["written"] = [stem + suffix for suffix in texts]
    texts = {stem + suffix: outputs.marked(text, "<!-- {} -->" if args.pnml else "# {}") for suffix, text in texts.items()}
    for path in texts:
        outputs.allowed(path, "marked")
    for path, text in texts.items():
        outputs.write(path, text)
        report.say(f"written: {inline(path)}")
    return report
