"""Terms of the logic: words and brackets, and the names that are free in them."""
import dataclasses
import re

# Constructors of the toolchain's library, which patterns name.
CONSTRUCTORS = set("[] ◌∷◌ None Some Ok Err true false zero suc inl inr pos negsuc tt".split())
# Words of the language, and names that are built in.
WORDS = set("λ let in elim as record where → × ¬ : | ↦ = ⊥ Unit tt absurd Type ? _".split())
OPENING = {"(": ")", "{": "}", "[": "]"}
TOKEN = re.compile(r'--[^\n]*|"(?:\\.|[^"\\])*"|\[\]|[(){}\[\];,]|[^\s(){}\[\];,"]+')


@dataclasses.dataclass
class Group:
    """What is between two brackets: words, and groups again."""
    opening: str
    items: list

    def split(self, *separators):
        """Yields the parts between the separators in the group itself."""
        part = []
        for item in self.items:
            if item in separators:
                yield part
                part = []
            else:
                part.append(item)
        yield part


def parsed(text):
    """Parses a text of the logic into words and groups. Comments fall away."""
    stack = [Group("", [])]
    for token in TOKEN.findall(text):
        if token in OPENING:
            stack.append(Group(token, []))
        elif token in OPENING.values() and len(stack) > 1:
            group = stack.pop()
            stack[-1].items.append(group)
        elif not token.startswith("--"):
            stack[-1].items.append(token)
    return stack[0].items


def bound_by(item):
    """The names that a group binds for what follows it, as (x y : A) does, or none."""
    if not isinstance(item, Group) or ":" not in item.items:
        return []
    names = item.items[:item.items.index(":")]
    return names if all(isinstance(it, str) and it not in WORDS for it in names) else []


class FreeNames:
    """Walks terms, and notes what each name means that is free in them.

    `resolve` takes a name and the members after its dots, and returns what it means:
    one target, or none where it means nothing that is followed.
    """

    def __init__(self, resolve):
        self.resolve = resolve
        self.met = {}

    def note(self, word, bound):
        head, _, members = word.partition(".")
        if head and head not in bound and head not in WORDS and not re.match(r'[0-9"]', head):
            target = self.resolve(head, members)
            if target:
                self.met[target] = True

    def pattern(self, items, bound):
        """Notes the constructors in a pattern, and returns the names that it binds."""
        names = set()
        for item in items:
            if isinstance(item, Group):
                names |= self.pattern(item.items, bound)
            elif item not in WORDS and not item[0].isdigit():
                head, _, members = item.partition(".")
                target = self.resolve(head, members)
                if target and target.constructs:
                    self.met[target] = True
                else:
                    names.add(item)
        return names

    def term(self, items, bound=frozenset()):
        """Notes the free names of a term, and returns what is bound after its last binder."""
        waiting, in_lambda = [], False
        for index, item in enumerate(items):
            if isinstance(item, Group):
                self.group(item, bound)
                bound |= set(bound_by(item))
            elif in_lambda:
                bound |= {item.removesuffix(".")}
                in_lambda = not item.endswith(".")
            elif item == "λ":
                in_lambda = True
            elif item == "in" and waiting:
                bound |= {waiting.pop()}
            elif index and items[index - 1] == "let":
                waiting.append(item)
            else:
                self.note(item, bound)
        return bound

    def group(self, group, bound):
        if bound_by(group):
            self.term(group.items[group.items.index(":") + 1:], bound)
        elif "↦" in group.items:
            for case in group.split("|"):
                if case:
                    arrow = case.index("↦")
                    self.term(case[arrow + 1:], bound | self.pattern(case[:arrow], bound))
        else:
            for part in group.split(",", ";"):
                # A field of a record, or an argument by its name.
                named = group.opening == "{" and part[1:2] == ["="]
                self.term(part[2:] if named else part, bound)
