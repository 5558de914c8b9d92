"""Random requests that edit a document of lists, by one user or by several."""
from dataclasses import dataclass, field

from following import documents

ROOT = "http://x/xcap"
WHOLE = "application/resource-lists+xml"
ELEMENT = "application/xcap-el+xml"
ATTRIBUTE = "application/xcap-att+xml"
VALUES = ["en", "a&lt;b", "", "\u00e9"]


@dataclass
class Request:
    """A request on a document: its method, the steps below the root element to the node that it
    names, if it names one, and its body with its media type; and what else its head has."""

    method: str
    steps: tuple = ()
    media: str = ""
    body: str | bytes = ""
    conditions: dict = field(default_factory=dict)

    def bytes_of(self, user, home, name):
        """The request as it is sent by a user to a document of a home."""
        body = self.body if isinstance(self.body, bytes) else self.body.encode()
        head = f"{self.method} /xcap/{path_of(home, name)}{node_of(self.steps)} HTTP/1.1\r\n"
        fields = {"Host": "x", "X-XCAP-User": user, **self.conditions}
        if self.media:
            fields |= {"Content-Type": self.media, "Content-Length": len(body)}
        head += "".join(f"{key}: {value}\r\n" for key, value in fields.items())
        return head.encode() + b"\r\n" + body


def path_of(home, name):
    return f"resource-lists/users/{home}/{name}"


def node_of(steps):
    if not steps:
        return ""
    escaped = "/".join(steps).replace('"', "%22").replace("[", "%5B").replace("]", "%5D")
    return f"/~~/resource-lists/{escaped}"


def whole(choices, prefix):
    return Request("PUT", (), WHOLE, documents.document(choices, prefix))


def deletion(*steps):
    return Request("DELETE", steps)


def list_step(number):
    return f'list[@name="l{number}"]'


def of_entry(choices, prefix, step):
    number = choices.below(9)
    by_position = choices.below(4) == 0
    entry = f"entry[{number + 1}]" if by_position else f'entry[@uri="sip:{number}@x"]'
    if choices.below(3) == 0:
        return deletion(step, entry)
    return Request("PUT", (step, entry), ELEMENT, documents.entry(choices, prefix, number))


def of_attribute(choices, step):
    if choices.below(3) == 0:
        return deletion(step, "@xml:lang")
    return Request("PUT", (step, "@xml:lang"), ATTRIBUTE, choices.one_of(VALUES))


def of_name(choices, prefix, step):
    if choices.below(3) == 0:
        return deletion(step, "display-name")
    body = documents.display_name(choices, prefix)
    return Request("PUT", (step, "display-name"), ELEMENT, body)


def of_list(choices, prefix, number, step):
    if choices.below(3) == 0:
        return deletion(step)
    return Request("PUT", (step,), ELEMENT, documents.list_of(choices, prefix, number))


def edit(choices, prefix):
    """An edit of a document whose names have this prefix, whole or in a list."""
    number = choices.below(3)
    step = list_step(number)
    kind = choices.below(48)
    if kind == 0:
        return whole(choices, prefix)
    if kind <= 4:
        return of_list(choices, prefix, number, step)
    if kind <= 12:
        return of_attribute(choices, step)
    if kind <= 20:
        return of_name(choices, prefix, step)
    return of_entry(choices, prefix, step)


# ---- what is refused, or may be


def broken(choices, prefix):
    """A PUT whose body is no document, or none that is valid."""
    inside = choices.one_of(
        [
            "<",
            "&none;",
            f"<{prefix}list name='l1'/><{prefix}list name='l1'/>",
            f"<{prefix}entry uri='sip:1@x'/>",
            f"<{prefix}list><{prefix}display-name/><{prefix}display-name/></{prefix}list>",
            f"<{prefix}list><{prefix}entry-ref ref='/a'/></{prefix}list>",
            "\udcff",
            "a",
        ]
    )
    text = f"{documents.start_of(prefix)}{inside}</{prefix}resource-lists>"
    return Request("PUT", (), WHOLE, text.encode(errors="surrogateescape"))


def misplaced(choices, prefix):
    """A request on a node that isn't what its address says, not of its media type, or not there."""
    step = list_step(choices.below(4))
    number = choices.below(9)
    entry = documents.entry(choices, prefix, number)
    requests = [
        Request("PUT", (step, f'entry[@uri="sip:{number + 1}@x"]'), ELEMENT, entry),
        Request("PUT", (step, f'entry[@uri="sip:{number}@x"]'), ATTRIBUTE, entry),
        Request("PUT", (step, "display-name"), ELEMENT, entry),
        Request("PUT", (step, f'entry[@uri="sip:{number}@x"]'), ELEMENT, entry + entry),
        Request("PUT", (step, "list"), ELEMENT, f"<{prefix}none/>"),
        Request("PUT", (step, "@xml:lang"), ATTRIBUTE, "<"),
        Request("PUT", (list_step(7), "display-name"), ELEMENT, documents.named(prefix, "a")),
        Request("DELETE", (step, f"entry[{number + 5}]")),
    ]
    return choices.one_of(requests)


def of_key(choices):
    """A change of an attribute that names its element, which mostly can't be found then."""
    step = list_step(choices.below(3))
    entry = f"entry[{choices.below(3) + 1}]"
    uri = f"sip:{choices.below(9)}@x"
    requests = [
        Request("PUT", (step, "@name"), ATTRIBUTE, f"l{choices.below(3)}"),
        Request("PUT", (step, entry, "@uri"), ATTRIBUTE, uri),
        deletion(step, entry, "@uri"),
        Request("PUT", (step, entry, "@xml:lang"), ATTRIBUTE, "de"),
    ]
    return choices.one_of(requests)


def any_edit(choices, prefix):
    """An edit, of all kinds."""
    kind = choices.below(20)
    if kind == 0:
        return deletion()
    if kind == 1:
        return broken(choices, prefix)
    if kind <= 3:
        return misplaced(choices, prefix)
    if kind <= 5:
        return of_key(choices)
    return edit(choices, prefix)


def condition(choices, tags):
    """A condition of a request, or none; the last of the document's tags is the present one."""
    present = tags[-1] if tags else "1"
    older = choices.one_of(tags) if tags else "2"
    kinds = [
        {"If-Match": f'"{present}"'},
        {"If-Match": f'"{older}"'},
        {"If-Match": "*"},
        {"If-Match": f'"none", "{older}"'},
        {"If-None-Match": f'"{present}"'},
        {"If-None-Match": f'"{older}"'},
        {"If-None-Match": "*"},
    ]
    return choices.one_of(kinds + [{}] * 14)
