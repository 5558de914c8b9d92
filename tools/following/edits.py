"""What an accepted edit has to have done to its document (RFC 4825), by a reading of its own."""
import re
from html import unescape

from following import trees
from following.documents import LISTS, start_of
from following.trees import Element, expanded

STEP = re.compile(r'([a-z-]+)(?:\[@([a-z]+)="([^"]*)"\]|\[(\d+)\])?')


def child(element, bound, step):
    """The child that a step selects, with what prefixes are bound to in it; None for no child."""
    name, key, value, position = STEP.fullmatch(step).groups()
    scopes = [(it, it.bound(bound)) for it in element.elements()]
    found = [it for it in scopes if expanded(it[0].name, it[1]) == (LISTS, name)]
    if position:
        found = found[int(position) - 1 :][:1]
    if key:
        found = [it for it in found if it[0].attributes.get(key) == value]
    return found[0] if len(found) == 1 else (None, bound)


def selected(root, steps):
    """The parent of the element that the steps select, and the element; None for none."""
    parent, element, bound = None, root, root.bound({})
    for step in steps:
        if element is None:
            return None, None
        parent = element
        element, bound = child(parent, bound, step)
    return parent, element


def part(root, steps):
    """What the steps select: an element, an attribute's value, or None."""
    if steps[-1][0] != "@":
        return selected(root, steps)[1]
    element = selected(root, steps[:-1])[1]
    return None if element is None else element.attributes.get(steps[-1][1:])


def without(root, steps):
    """The document without what the steps select."""
    made = trees.copy(root)
    if steps[-1][0] == "@":
        element = selected(made, steps[:-1])[1]
        if element is not None:
            element.attributes.pop(steps[-1][1:], None)
        return made
    parent, element = selected(made, steps)
    if element is not None:
        parent.content = [it for it in parent.content if it is not element]
        parent.join_texts()
    return made


def put_by(request, prefix):
    """What a request puts to a node."""
    if request.steps[-1][0] == "@":
        return unescape(request.body)
    around = start_of(prefix), f"</{prefix}resource-lists>"
    return trees.read(request.body.join(around)).elements()[0]


def fault_of(request, prefix, before, after):
    """What an accepted request did otherwise than it says, by the document before and after it, of
    which None is no document; None for nothing."""
    if not request.steps:
        due = trees.read(request.body) if request.method == "PUT" else None
        return None if due == after else "the document isn't what was put"
    if before is None or after is None:
        return "a node of no document was changed"
    there = part(after, request.steps)
    if request.method == "DELETE":
        if part(before, request.steps) is None or there is not None:
            return "the node is there still, or wasn't"
    elif there != put_by(request, prefix):
        return "the node isn't what was put"
    if without(before, request.steps) != without(after, request.steps):
        return "something else changed with the node"
    return None
