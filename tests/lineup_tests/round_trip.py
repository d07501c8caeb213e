"""Text to words to text, on every sample and on generated pairs, with plain and with odd names."""
import os
import random
import tempfile

import generated
from lineup import files, inputs, logfile, names, netfile, pnml, sheetfile, wordfile, words, wordtext

ODD = ["tank 1", "a{b}", "back\\slash", "{", "}", "->", "-", "#1", "p*2", "(x)", "a:b", "net", "pl", "tr", "sheet", "nt", "[0,w["]
ODD += ["'", "1", "007", "ä", "Ωmega", "船", '"q"', "a&b<c>", "x->y", "a.b-c", "é"]


def run(tally):
    for folder in generated.samples():
        net = inputs.net(folder)
        sheet = inputs.sheet(folder, net)
        both_ways(tally, os.path.basename(folder), net, sheet)
    random.seed(2026)
    for i, (net, sheet, _) in enumerate(generated.damaged(11, 600)):
        if len(sheet.words) > 1500 and i % 5:
            continue  # the largest take most of the time
        if i % 2:
            rename(net.model, sheet.model)
        both_ways(tally, f"generated pair {i}", net, sheet)
    logs(tally)
    readable(tally)


def logs(tally):
    """A log whose transitions and nodes are there, as text and back, with odd names in every other."""
    many = 0
    for i, (net, sheet, log) in enumerate(generated.logged(7, 3000)):
        if not (log.model and net.model and sheet.model):
            continue
        if any(t >= len(net.model.transitions) for t in log.model.firings) or any(n >= len(sheet.model.nodes) for n in log.model.nodes):
            continue
        if i % 2:
            rename(net.model, sheet.model)
        log.model.name = random.choice([None, "may", "a log"] if log.model.firings else ["may", "a log"])
        text = logfile.write(net.model, sheet.model, log.model)
        again = logfile.read("again.log", text, net.model, sheet.model)
        tally.same(f"log {i}: text to words", (words.log_words(again), again.name), (log.words, log.model.name))
        tally.same(f"log {i}: text to text", logfile.write(net.model, sheet.model, again), text)
        many += 1
    tally.check("logs as text", many > 100, many)


def readable(tally):
    """How much of it could be written as text: every sample whose words make sense, and hundreds of generated pairs."""
    names_ = [os.path.basename(folder) for folder in generated.samples() if inputs.sheet(folder, inputs.net(folder)).model]
    refused = [name for name in (os.path.basename(folder) for folder in generated.samples()) if name not in names_]
    tally.same("samples whose words are no text", [name[:2] for name in refused], ["01", "02", "03", "06", "07", "08", "09"])


def rename(net, sheet):
    """Other names, some of which need braces."""
    for model, lists in ((net, ("places", "transitions")), (sheet, ("nodes",))):
        for name in lists if model else ():
            old = getattr(model, name)
            odd = random.sample(ODD, min(len(ODD), len(old)))
            setattr(model, name, [odd[i] if i < len(odd) and random.random() < 0.7 else f"{word} {i}" for i, word in enumerate(old)])


def both_ways(tally, what, net, sheet):
    if not net.model:
        return
    text = netfile.write(net.model)
    again = netfile.read("again.net", text)
    tally.same(f"{what}: net, text to words", words.net_words(again), net.words)
    tally.same(f"{what}: net, names", (again.places, again.transitions), (net.model.places, net.model.transitions))
    tally.same(f"{what}: net, text to text", netfile.write(again), text)
    tally.same(f"{what}: net, words with remarks", wordfile.decimal("", wordtext.net_text(again))[0], net.words)
    other = pnml.read("again.pnml", pnml.write(again).encode())
    tally.same(f"{what}: net, PNML", (words.net_words(other), other.places, other.transitions), (net.words, again.places, again.transitions))
    if sheet.model:
        sheet_both_ways(tally, what, again, net, sheet)


def sheet_both_ways(tally, what, over, net, sheet):
    text = sheetfile.write(over, sheet.model)
    again = sheetfile.read("again.sheet", text, over)
    tally.same(f"{what}: sheet, text to words", words.sheet_words(over, again), sheet.words)
    tally.same(f"{what}: sheet, names", again.nodes, sheet.model.nodes)
    tally.same(f"{what}: sheet, text to text", sheetfile.write(over, again), text)
    tally.same(f"{what}: sheet, words with remarks", wordfile.decimal("", wordtext.sheet_text(over, again))[0], sheet.words)
    with tempfile.TemporaryDirectory() as folder:
        files.write(os.path.join(folder, "names.txt"), names.text(over, again))
        files.write(os.path.join(folder, "net.bin"), wordfile.packed(net.words))
        files.write(os.path.join(folder, "sheet.bin"), wordfile.packed(sheet.words))
        back = inputs.net(folder)
        whole = inputs.sheet(folder, back)
        tally.same(f"{what}: from a folder of words", (netfile.write(back.model), sheetfile.write(back.model, whole.model)), (netfile.write(over), text))
