"""Files of the code: clauses of functions, ghost members of traits, and types."""
import functools
import re

from reading_list.specs import CRATES, Target, imported, operators, target_of
from reading_list.terms import FreeNames, parsed

IMPORT = re.compile(r"^ *ghost use ([^;]+);", re.M)
USE = re.compile(r"^ *(?:pub(?:\([^)]*\))? )?use (\w+)::([^;]+);", re.M)
USED = re.compile(r"(?:(\w+) as )?(\w+)(?=\s*(?:[,}]|$))")
CLAUSE = re.compile(r"\s*(requires|ensures|ghost)\*?\s*(\w*)\s*(?=\{)")
EXPORTS = re.compile(r"^pub use \w+::([^;]+);", re.M)
DECLARED = re.compile(r"^pub (?:fn|struct|enum|trait|type) (\w+)", re.M)
FUNCTION = re.compile(r"(\bpub (?:unsafe )?)?\bfn \w+")
GHOST = re.compile(r"^ *ghost \w+(?:: [^;{]*)? = ", re.M)
HEAD = re.compile(r"\b(?:trait (\w+)|impl(?:<[^{]*?>)? (?:[^{]*? for )?&?(?:mut )?(\w+))")
CLOSING = {"{": "}", "(": ")", "<": ">", "[": "]"}


def without_comments(text):
    """The text with its comments and attributes blanked, so that all else stays in its place."""
    return re.sub(r"//[^\n]*|^ *#!?\[[^\n]*\]$", lambda it: " " * len(it.group()), text, flags=re.M)


def after_bracket(text, start):
    """The place after the bracket that closes the one at a place."""
    depth = 0
    for place in range(start, len(text)):
        if text[place] == CLOSING[text[start]] and text[place - 1] not in "-=":
            depth -= 1
        depth += text[place] == text[start]
        if not depth:
            return place + 1
    raise ValueError(f"no bracket closes {text[start:start + 60]}")


def within(text, start):
    """What is in the first braces after a place."""
    opening = text.index("{", start)
    return text[opening + 1:after_bracket(text, opening) - 1]


class CodeFile:
    """A file of the code."""

    @staticmethod
    @functools.cache
    def all_of(crate):
        return [CodeFile(crate, path) for path in sorted((CRATES / crate / "src").rglob("*.rt"))]

    def __init__(self, crate, path):
        self.crate, self.text = crate, without_comments(path.read_text())
        self.ghosts = [(self.blocks(it.start()), imported(it.group(1)))
                       for it in IMPORT.finditer(self.text)]
        # By each name that the code imports, its crate and its name there.
        self.used = {
            here: (crate if root == "crate" else root, there or here)
            for root, names in USE.findall(self.text)
            for there, here in USED.findall(names)
        }

    def blocks(self, place):
        """The starts of the blocks around a place, outermost first."""
        starts = []
        for brace in re.finditer(r"[{}]", self.text[:place]):
            if brace.group() == "{":
                starts.append(brace.start())
            elif starts:
                starts.pop()
        return starts

    def free_names(self, place, text, bounds):
        """What is free in a clause at a place, where type parameters have these bounds."""
        around = self.blocks(place)
        imports = {}
        for blocks, names in self.ghosts:
            imports |= names if around[:len(blocks)] == blocks else {}
        words = operators(imports)

        def resolve(head, members):
            name = words.get(head, head)
            member = members.partition(".")[0]
            if name in imports:
                module, there = imports[name]
                return target_of(module, member if there is None else there)
            return self.member(bounds[head], member) if head in bounds else self.type(head)

        names = FreeNames(resolve)
        names.term(parsed(text))
        return list(names.met)

    def type(self, name):
        """The struct, enum or trait of the project that a name means, if it means one."""
        crate, name = self.used.get(name, (self.crate, name))
        return Target("type", crate, name) if declaration(crate, name) else None

    def types(self, text):
        return list(filter(None, map(self.type, re.findall(r"(?<![\w.])[A-Z]\w*", text))))

    def member(self, bounds, member):
        """The ghost member of one of these traits, or of those that they extend."""
        for trait in filter(None, map(self.type, bounds)):
            file, found = declaration(trait.place, trait.name)
            if re.search(rf"ghost {member}: ", within(file.text, found.end())):
                return Target("member", trait.place, f"{trait.name}.{member}")
            above = re.findall(r"\w+", file.text[found.end():file.text.index("{", found.end())])
            inherited = file.member(above, member)
            if inherited:
                return inherited
        return None


@functools.cache
def declaration(crate, name):
    """The file that declares a type of this name, and the match of its first words, if one does."""
    words = re.compile(rf"^ *(?:pub(?:\([^)]*\))? )?(struct|enum|trait|type) {name}\b", re.M)
    found = ((file, words.search(file.text)) for file in CodeFile.all_of(crate))
    return next((pair for pair in found if pair[1]), None)


def parts_of_type(target):
    """What one reads to know a type: the value that contracts see in it, or its parts."""
    found = declaration(target.place, target.name)
    if not found or found[1].group(1) == "trait":
        return []
    file, words = found
    if re.match(r"\s*:", file.text[words.end():]):
        # An associated type, which each impl gives.
        return []
    model = re.search(rf"^impl.* Model for {target.name}\b", file.text, re.M)
    if model and "ghost Value = " in within(file.text, model.end()):
        place = file.text.index("ghost Value = ", model.end())
        return file.free_names(place, within(file.text, place), {})
    body = re.compile(r"(?:<[^({;]*>)?\s*([=({;])").match(file.text, words.end())
    start = body.start(1)
    if body.group(1) in "=;":
        return file.types(file.text[start:file.text.index(";", start)])
    inside = file.text[start + 1:after_bracket(file.text, start) - 1]
    if words.group(1) == "enum":
        # A variant's name is no type.
        inside = re.sub(r"^ {4}\w+", "", inside, flags=re.M)
    return file.types(inside)


def parts_of_member(target):
    """What the declaration of a ghost member names."""
    trait, _, member = target.name.partition(".")
    file, words = declaration(target.place, trait)
    place = re.compile(rf"ghost {member}: ").search(file.text, words.end()).end()
    return file.free_names(place, within(file.text, place), {})


def parts_of_function(path):
    """What the clauses and the signature of a function name: CRATE::FUNCTION, or with the type or
    trait between the two; with .LABEL behind it, of what it ensures that clause alone."""
    path, _, label = path.partition(".")
    crate, *owner, function = path.split("::")
    parts = []
    for file in CodeFile.all_of(crate):
        for words in re.finditer(rf"\bfn {function}\b", file.text):
            heads = [re.split(r"[;}]", file.text[:it])[-1] for it in file.blocks(words.start())]
            if all(any(re.search(rf"\b{it}\b", head) for head in heads) for it in owner):
                parts += parts_at(file, words.end(), heads[-1] if heads else "", label)
    return parts


def parts_at(file, place, head, label=""):
    """The same of the function whose name ends at a place of a file, in an impl of this head."""
    text, bounds = file.text, {}
    if text[place] == "<":
        end = after_bracket(text, place)
        generics = re.findall(r"(\w+): ([\w +]+)", text[place:end])
        bounds = {name: re.findall(r"\w+", traits) for name, traits in generics}
        place = end
    after = after_bracket(text, place)
    end = re.compile(r"[{;]|\b(?:requires|ensures|ghost)\b").search(text, after).start()
    signature, parts, is_met = text[place:end], [], not label
    while opening := CLAUSE.match(text, end):
        is_asked = not label or opening[1] != "ensures" or opening[2] == label
        is_met |= opening[2] == label
        if is_asked:
            parts += file.free_names(opening.end(), within(text, opening.end()), bounds)
        end = after_bracket(text, opening.end())
    if not is_met:
        return []
    has_self = re.search(r"\b[sS]elf\b", signature)
    return parts + file.types(signature + (head if has_self else ""))


@functools.cache
def exported(crate):
    """The names that the root file of a library declares or gives on; a program has none."""
    root = CRATES / crate / "src" / "lib.rt"
    text = without_comments(root.read_text()) if root.exists() else ""
    given = {here for names in EXPORTS.findall(text) for _, here in USED.findall(names)}
    return given | set(DECLARED.findall(text))


def parts_of_public(crate):
    """What the clauses of the public calls of a crate name, and what the ghost members of its
    public types and traits do."""
    calls, ghosts = [], []
    for file in CodeFile.all_of(crate):
        for words in [*FUNCTION.finditer(file.text), *GHOST.finditer(file.text)]:
            heads = [re.split(r"[;}]", file.text[:it])[-1] for it in file.blocks(words.start())]
            head = heads[-1] if heads else ""
            owner = next(filter(None, map(HEAD.search, reversed(heads))), None)
            name = (owner[1] or owner[2]) if owner else words[0].split()[-1]
            if name not in exported(crate):
                continue
            if not words[0].lstrip().startswith("ghost"):
                is_public = words[1] or re.search(r"\btrait\b|\bfor\b", head)
                calls += parts_at(file, words.end(), head) if is_public else []
            elif file.text[words.end()] == "{":
                ghosts += file.free_names(words.end(), within(file.text, words.end()), {})
    return calls, ghosts
