"""Random documents of lists, and parts of them."""
LISTS = "urn:ietf:params:xml:ns:resource-lists"
PREFIXES = ["", "", "d:", "d1:", "rl:"]
GAPS = ["", "", "\n  ", "<!-- of friends -->", " <!--a--> <!--b-->", "\t"]
NAMES = ["Bob", "Al &amp; Co", "", "\u00e9t\u00e9", "<![CDATA[a<b]]>", "d:x"]


def start_of(prefix):
    """The start tag of a document, whose names have this prefix, with its colon."""
    name = f":{prefix[:-1]}" if prefix else ""
    return f'<{prefix}resource-lists xmlns{name}="{LISTS}">'


def named(prefix, name):
    return f"<{prefix}display-name>{name}</{prefix}display-name>"


def foreign(choices):
    """What an element of another namespace adds to an entry, if there is one."""
    number = choices.below(9)
    kinds = [
        f'<x:mark xmlns:x="urn:x" x:at="{number}"/>',
        f'<d:note xmlns:d="urn:d">{number}<d:sub/> </d:note>',
        "",
        "",
    ]
    return choices.one_of(kinds)


def full_entry(choices, prefix, number):
    name = choices.one_of(NAMES)
    gap = choices.one_of(GAPS)
    inside = named(prefix, name) + foreign(choices)
    return f'<{prefix}entry uri="sip:{number}@x">{gap}{inside}{gap}</{prefix}entry>'


def entry(choices, prefix, number):
    if choices.below(2):
        return full_entry(choices, prefix, number)
    return f'<{prefix}entry uri="sip:{number}@x"/>'


def entries(choices, prefix):
    first = choices.below(5)
    made = ""
    for index in range(choices.below(4)):
        made += choices.one_of(GAPS)
        made += entry(choices, prefix, first + index)
    return made + choices.one_of(GAPS)


def display_name(choices, prefix):
    return named(prefix, choices.one_of(NAMES))


def list_of(choices, prefix, number):
    made = f'<{prefix}list name="l{number}">'
    if choices.below(3) == 0:
        made += display_name(choices, prefix)
    made += entries(choices, prefix)
    return f"{made}</{prefix}list>"


def document(choices, prefix):
    made = start_of(prefix)
    for number in range(choices.below(3) + 1):
        made += choices.one_of(GAPS)
        made += list_of(choices, prefix, number)
    return f"{made}{choices.one_of(GAPS)}</{prefix}resource-lists>"
