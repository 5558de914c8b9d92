"""XML as expat reads it, with names and declarations as they are written."""
from xml.parsers import expat

XML = "http://www.w3.org/XML/1998/namespace"


class Element:
    """An element: its name as written, its attributes and declarations by name, and its content,
    in which a text is a string and a comment a tuple of one."""

    def __init__(self, name, attributes):
        self.name = name
        self.attributes = attributes
        self.content = []

    def __eq__(self, other):
        return isinstance(other, Element) and vars(self) == vars(other)

    def elements(self):
        return [it for it in self.content if isinstance(it, Element)]

    def bound(self, outer):
        """What prefixes are bound to in it, by what they are bound to around it."""
        own = {name[6:]: uri for name, uri in self.attributes.items() if name[:5] == "xmlns"}
        return {**outer, **own} if own else outer

    def text(self):
        return "".join(it for it in self.content if isinstance(it, str))

    def join_texts(self):
        """Joins neighbouring texts."""
        joined = []
        for it in self.content:
            if isinstance(it, str) and joined and isinstance(joined[-1], str):
                joined[-1] += it
            else:
                joined.append(it)
        self.content = joined


def expanded(name, bound, by_default=True):
    """The URI and the local name that a name means."""
    prefix, _, local = name.rpartition(":")
    if prefix == "xml":
        return XML, local
    return bound.get(prefix, "") if prefix or by_default else "", local


def read(text):
    """The root element of a document."""
    roots, opened = [], []

    def start(name, attributes):
        made = Element(name, attributes)
        (opened[-1].content if opened else roots).append(made)
        opened.append(made)

    def add(node):
        if opened:
            opened[-1].content.append(node)

    parser = expat.ParserCreate()
    parser.buffer_text = True
    parser.StartElementHandler = start
    parser.EndElementHandler = lambda _: opened.pop().join_texts()
    parser.CharacterDataHandler = add
    parser.CommentHandler = lambda text: add((text,))
    parser.Parse(text, True)
    return roots[0]


def copy(element):
    made = Element(element.name, dict(element.attributes))
    made.content = [copy(it) if isinstance(it, Element) else it for it in element.content]
    return made
