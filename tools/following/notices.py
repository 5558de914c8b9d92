"""Changes as notices tell them (RFC 5874, RFC 5261), applied to a copy of a document.

This is a reading of the standards of its own. It knows the selectors that name elements by their
positions and attributes by their names, and no other.
"""
import functools
import re

from following import trees
from following.trees import Element, expanded

DIFF = "urn:ietf:params:xml:ns:xcap-diff"
STEP = re.compile(r"\*(?:\[(\d+)\])?")


class Unfit(Exception):
    """A notice that doesn't fit the copy."""


def need(holds, why):
    if not holds:
        raise Unfit(why)


class Place:
    """An element of a copy, with the elements that contain it from outside in. The outermost is no
    element of the copy; it holds the root element."""

    def __init__(self, root):
        self.path = [Element("", {})]
        self.path[0].content.append(root)

    @property
    def element(self):
        return self.path[-1]

    @property
    def holder(self):
        return self.path[-2]

    @property
    def within(self):
        """What prefixes are bound to in it."""
        return bound_along(self.path)

    @property
    def around(self):
        return bound_along(self.path[:-1])

    def enter(self, step):
        found = STEP.fullmatch(step)
        need(found, f"no step: {step}")
        elements = self.element.elements()
        number = int(found[1] or 1)
        need(number <= len(elements), f"no element at {step}")
        self.path.append(elements[number - 1])

    def index(self):
        return next(n for n, it in enumerate(self.holder.content) if it is self.element)


def bound_along(path):
    return functools.reduce(lambda bound, it: it.bound(bound), path, {})


def check_names(element, there, here):
    """Each name of what is put means in its place what it means in the notice."""
    here, there = element.bound(here), element.bound(there)
    names = [element.name, *(it for it in element.attributes if not it.startswith("xmlns"))]
    for number, name in enumerate(names):
        is_same = expanded(name, there, number == 0) == expanded(name, here, number == 0)
        need(is_same, f"{name} is bound otherwise where it is put")
    for it in element.elements():
        check_names(it, there, here)


def only_element(operation, within, around):
    """A copy of the one element that an operation puts to a place."""
    need(len(operation.content) == 1 and operation.elements(), "content that is no element")
    put = operation.content[0]
    check_names(put, within, around)
    return trees.copy(put)


def attribute_in(name, bound, place):
    """The name in the place's scope of the attribute that is named so in the notice's."""
    need(
        expanded(name, bound, False) == expanded(name, place.within, False),
        f"{name} is bound otherwise in its place",
    )
    return name


def add(operation, bound, place):
    kind, position = operation.attributes.get("type"), operation.attributes.get("pos")
    if kind is not None:
        name = attribute_in(kind[1:], bound, place)
        need(kind[:1] == "@" and name not in place.element.attributes, f"{kind} is there")
        place.element.attributes[name] = operation.text()
        return
    need(position in ("prepend", "after", "before", None), f"no position: {position}")
    if position in ("prepend", None):
        made = only_element(operation, bound, place.within)
        at = 0 if position else len(place.element.content)
        place.element.content.insert(at, made)
        return
    made = only_element(operation, bound, place.around)
    place.holder.content.insert(place.index() + (position == "after"), made)


def replace(operation, bound, place, attribute):
    if attribute is not None:
        name = attribute_in(attribute, bound, place)
        need(name in place.element.attributes, f"no attribute {name}")
        place.element.attributes[name] = operation.text()
        return
    made = only_element(operation, bound, place.around)
    place.holder.content[place.index()] = made


def remove(operation, bound, place, attribute):
    need(not operation.content, "a removal with content")
    if attribute is not None:
        name = attribute_in(attribute, bound, place)
        need(name in place.element.attributes, f"no attribute {name}")
        del place.element.attributes[name]
        return
    del place.holder.content[place.index()]
    place.holder.join_texts()


def operate(root, operation, bound):
    """Makes the change that an operation says, and returns the root element then."""
    bound = operation.bound(bound)
    path, is_attribute, attribute = operation.attributes["sel"].partition("/@")
    place = Place(root)
    for step in path.split("/"):
        place.enter(step)
    uri, word = expanded(operation.name, bound)
    need(uri == DIFF, f"no operation: {operation.name}")
    attribute = attribute if is_attribute else None
    if word == "add":
        add(operation, bound, place)
    elif word in ("replace", "remove"):
        (replace if word == "replace" else remove)(operation, bound, place, attribute)
    else:
        raise Unfit(f"no operation: {word}")
    return place.path[0].elements()[0]


def told_of(document, bound, path, held):
    """What a copy becomes by what is reported of its document: its tag and its root element."""
    need(expanded(document.name, bound) == (DIFF, "document"), f"no document: {document.name}")
    said = document.attributes
    need(said["sel"] == path, f"told of {said['sel']}")
    tag, root = held
    need(said.get("previous-etag") == tag, f"told from {said.get('previous-etag')}, held {tag}")
    for operation in document.elements():
        root = operate(root, operation, document.bound(bound))
    return said.get("new-etag"), root if "new-etag" in said else None


def applied(notice, path, held):
    """What a copy of the document at a path becomes by a notice: its tag and its root element, or
    None and None where the document is gone. The root element that is given is changed itself."""
    told = trees.read(notice)
    bound = told.bound({})
    need(expanded(told.name, bound) == (DIFF, "xcap-diff"), f"no notice: {told.name}")
    for document in told.elements():
        held = told_of(document, document.bound(bound), path, held)
    return held
