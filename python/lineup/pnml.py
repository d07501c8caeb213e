"""Nets as PNML (ISO/IEC 15909-2), place/transition nets alone, with a label of ours for what a place can hold: reading and writing."""
import re
from html import escape

from lineup import streams, xml
from lineup.names import spare
from lineup.net import Net
from lineup.tokens import LARGEST_WORD, named
from lineup.trouble import Trouble
from lineup.visible import quoted

SPACE = "http://www.pnml.org/version-2009/grammar/pnml"
TYPE = "http://www.pnml.org/version-2009/grammar/ptnet"
# what else tools write for a place/transition net, as 'P/T net' and 'PTNet': what stands behind the last '/', in small letters
OTHER_TYPES = {"ptnetb", "t net", "pt net", "pt-net", "transition net", "pnmlcoremodel", "epnml-1.1", ""}
LAYOUT = {"name", "graphics", "toolspecific"}  # children that say nothing about the net's behaviour
MEANING = {
    "place": {"initialMarking", "capacity"},
    "transition": set(),
    "arc": {"inscription"},
    "net": {"page", "place", "transition", "arc", "referencePlace", "referenceTransition"},
    "reference": set(),
}
# what tools write at every element, and the value with which it says nothing; None for any
HARMLESS = {
    ("arc", "type"): {"normal"}, ("arc", "tagged"): {"false"}, ("arc", "arcpath"): None, ("transition", "orientation"): None, ("transition", "timed"): {"false"}, ("transition", "rate"): None,
    ("transition", "infiniteServer"): {"false"}, ("transition", "priority"): {"1"}, ("net", "token"): None, ("net", "labels"): None,
}


def read(path, data):
    """The net of a PNML file."""
    return Reader(path).net_of(xml.read(path, data))


class Reader:
    def __init__(self, path):
        self.path = path
        self.net = Net()
        self.ids = {}  # id: (kind, number)
        self.references = {}  # id: the element that stands for another one
        self.arcs = []

    def fail(self, element, message):
        self.fail_at(element.where, message)

    def fail_at(self, where, message):
        raise Trouble(message, self.path, *where)

    def net_of(self, root):
        nets = root.all("net") if root.tag == "pnml" else []
        if len(nets) != 1:
            self.fail(root, f"one net in a pnml element is expected, not {len(nets)}")
        kind = nets[0].attributes.get("type", "")
        last = kind.strip().rpartition("/")[2].lower()
        if last not in {"ptnet", *OTHER_TYPES}:
            self.fail(nets[0], f"the net's type is {quoted(kind)}, and only place/transition nets ('ptnet') are read")
        if kind.strip().rpartition("/")[2] != "ptnet":
            streams.note(Trouble(f"the net's type is {quoted(kind)}, and it is read as a place/transition net ('ptnet')", self.path, *nets[0].where))
        self.net.name = self.label(nets[0], "name") and self.name(nets[0]) or ""
        self.pages(nets[0])
        for kind, names in (("place", self.net.places), ("transition", self.net.transitions)):
            self.told_apart(kind, names)
        for arc in self.arcs:
            self.arc(arc)
        return self.net

    def told_apart(self, kind, names):
        """Equal names, told apart by their ids."""
        ids = {number: key for key, (other, number) in self.ids.items() if other == kind}
        for name in sorted({name for name in names if names.count(name) > 1}):
            numbers = [i for i, other in enumerate(names) if other == name]
            for i in numbers:
                names[i] = spare(named(f"{name} ({ids[i]})", lambda what, i=i: self.fail_at(self.net.where[kind, i], what)), set(names))
            streams.note(Trouble(f"{len(numbers)} {kind}s are called {quoted(name)}, and are told apart by their ids: {', '.join(quoted(names[i]) for i in numbers)}", self.path, *self.net.where[kind, numbers[1]]))

    def pages(self, net):
        """The places, transitions and arcs of the net and its pages, one within the other to any depth."""
        todo = [net]
        while todo:
            page = todo.pop(0)
            self.only(page, "net")
            for child in page.children:
                if child.tag == "page":
                    todo.append(child)
                elif child.tag == "place":
                    self.place(child)
                elif child.tag == "transition":
                    self.transition(child)
                elif child.tag == "arc":
                    self.only(child, "arc")
                    self.arcs.append(child)  # its ends may stand further down
                elif child.tag in ("referencePlace", "referenceTransition"):
                    self.only(child, "reference")
                    self.known(child)
                    self.references[child.attributes.get("id", "")] = child

    def only(self, element, kind):
        """Refuses what no place/transition net has, by its name."""
        for child in element.children:
            if child.tag not in LAYOUT | MEANING[kind]:
                said = child.attributes.get("value") or child.text.strip() or next((part.text.strip() for part in child.children if part.text.strip()), "")
                harmless = HARMLESS.get((kind, child.tag), set())
                if harmless is None or said in harmless:
                    continue
                what = quoted(child.tag) + (f" ({quoted(said)})" if said else "")
                self.fail(child, f"{what} at {'an' if kind == 'arc' else 'a'} {element.tag} is not part of a place/transition net")

    def label(self, element, tag):
        """The text of a label, nothing where there is none."""
        found = element.all(tag)
        if len(found) > 1:
            self.fail(found[1], f"a second {quoted(tag)} at a {element.tag}")
        texts = [part.text for part in found[0].all("text") or found[0].all("value")] if found else []
        return " ".join(texts[0].split()) if texts else None

    def number(self, element, tag, otherwise):
        text = self.label(element, tag)
        if text is None:
            return otherwise
        text = re.sub("^Default *, *", "", text)  # the colour of a net that has one alone, as PIPE writes it
        if not re.fullmatch("[0-9]+", text) or len(text) > 10 or int(text) > LARGEST_WORD:
            self.fail(element.all(tag)[0], f"{quoted(text)} is no number from 0 to 4,294,967,295")
        return int(text)

    def name(self, element):
        """An element's name; without one it goes by its id."""
        name = self.label(element, "name") or element.attributes.get("id", "")
        return named(name, lambda what: self.fail(element, what))

    def add(self, element, kind, names):
        self.only(element, kind)
        name = self.name(element)
        self.ids[self.known(element)] = (kind, len(names))
        self.net.where[kind, len(names)] = element.where
        names.append(name)
        return len(names) - 1

    def known(self, element):
        """The id of an element, which no other has."""
        key = element.attributes.get("id", "")
        if key in self.ids or key in self.references:
            self.fail(element, f"the id {quoted(key)} is there already")
        return key

    def place(self, element):
        p = self.add(element, "place", self.net.places)
        count = self.number(element, "initialMarking", 0)
        if count:
            self.net.start[p] = count
            self.net.where["start", p] = element.where
        if element.all("capacity"):
            if self.label(element, "capacity") is None:
                self.fail(element.all("capacity")[0], "a capacity without a text: <capacity><text>NUMBER</text></capacity> is expected")
            most = self.number(element, "capacity", 0)
            if most or element.all("capacity")[0].all("text"):  # as a value, 0 is what PIPE writes for none
                self.net.capacity[p] = most
                self.net.where["capacity", p] = element.where

    def transition(self, element):
        self.add(element, "transition", self.net.transitions)
        self.net.taken.append({})
        self.net.put.append({})

    def arc(self, element):
        ends = [element.attributes.get(end, "") for end in ("source", "target")]
        (kind, one), (other, two) = (self.meant(element, end) for end in ends)
        if kind == other:
            self.fail(element, f"an arc from a {kind} to a {other}")
        t, p = (two, one) if kind == "place" else (one, two)
        row, what = (self.net.taken, "taken") if kind == "place" else (self.net.put, "put")
        if p in row[t]:
            self.fail(element, f"a second arc from {quoted(ends[0])} to {quoted(ends[1])}: give one arc the whole weight")
        row[t][p] = self.number(element, "inscription", 1)
        self.net.where[what, t, p] = element.where


    def meant(self, arc, end):
        """The place or transition of an arc's end, which may be a reference, or one to a reference."""
        seen = []
        while end in self.references and end not in seen:
            seen.append(end)
            end = self.references[end].attributes.get("ref", "")
        last = self.references[seen[-1]] if seen else arc
        if end in seen:
            self.fail(last, f"the reference {quoted(end)} leads back to itself")
        if end not in self.ids:
            self.fail(last, f"the {'reference' if seen else 'arc'}'s end {quoted(end)} is no place and no transition")
        if seen and last.tag != f"reference{self.ids[end][0].capitalize()}":
            self.fail(last, f"the {quoted(last.tag)} refers to {quoted(end)}, a {self.ids[end][0]}")
        return self.ids[end]


# ---- writing


def write(net):
    """The net as PNML."""

    def label(tag, text):
        return f"<{tag}><text>{escape(str(text), quote=False)}</text></{tag}>"

    lines = ['<?xml version="1.0" encoding="UTF-8"?>', f'<pnml xmlns="{SPACE}">', f'  <net id="net" type="{TYPE}">']
    lines += [f"    {label('name', net.name)}"] if net.name else []
    lines += ['    <page id="page">']
    for p, name in enumerate(net.places):
        start = label("initialMarking", net.start[p]) if p in net.start else ""
        most = label("capacity", net.capacity[p]) if p in net.capacity else ""
        lines.append(f'      <place id="p{p}">{label("name", name)}{start}{most}</place>')
    for t, name in enumerate(net.transitions):
        lines.append(f'      <transition id="t{t}">{label("name", name)}</transition>')
    arcs = [(f"p{p}", f"t{t}", weight) for t, row in enumerate(net.taken) for p, weight in sorted(row.items())]
    arcs += [(f"t{t}", f"p{p}", weight) for t, row in enumerate(net.put) for p, weight in sorted(row.items())]
    for i, (source, target, weight) in enumerate(arcs):
        inscription = label("inscription", weight) if weight != 1 else ""
        lines.append(f'      <arc id="a{i}" source="{source}" target="{target}">{inscription}</arc>')
    return "\n".join([*lines, "    </page>", "  </net>", "</pnml>"]) + "\n"
