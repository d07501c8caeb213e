"""An XML text as elements with their lines and columns. A document type, and with it every entity, is refused."""
from xml.parsers import expat

from lineup.trouble import Trouble
from lineup.visible import quoted


class Element:
    def __init__(self, tag, attributes, where):
        self.tag = tag.rpartition(" ")[2]  # without its namespace
        self.attributes, self.where = attributes, where
        self.children, self.text = [], ""

    def all(self, tag):
        """The children with a tag."""
        return [child for child in self.children if child.tag == tag]


def read(path, data):
    """The outermost element."""
    parser = expat.ParserCreate(namespace_separator=" ")
    outside = Element("", {}, (1, 1))
    open_ = [outside]

    def where():
        return parser.CurrentLineNumber, parser.CurrentColumnNumber + 1

    def start(tag, attributes):
        element = Element(tag, attributes, where())
        open_[-1].children.append(element)
        open_.append(element)

    def text(data):
        open_[-1].text += data

    def document_type(*_):
        raise Trouble("a document type ('<!DOCTYPE') is not read", path, *where())

    parser.StartElementHandler, parser.EndElementHandler = start, lambda tag: open_.pop()
    parser.CharacterDataHandler, parser.StartDoctypeDeclHandler = text, document_type
    try:
        parser.Parse(data, True)
    except expat.ExpatError as error:
        raise Trouble(f"no XML: {quoted(expat.ErrorString(error.code))}", path, error.lineno, error.offset + 1) from None
    return outside.children[0]
