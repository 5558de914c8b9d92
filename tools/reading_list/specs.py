"""Files of definitions, and what names mean in them."""
import dataclasses
import functools
import pathlib
import re

from reading_list.terms import CONSTRUCTORS, FreeNames, parsed

CRATES = pathlib.Path(__file__).resolve().parent.parent.parent / "crates"
HEAD = re.compile(r"(?:abbrev|unfoldable)(?: pub)?\s|(?:pub )?(?:record|data)\s|pub\s")


@dataclasses.dataclass(frozen=True)
class Target:
    """What a name means: the kind of thing, where it is, and its name there.

    The kinds are `definition`; `type`, `constant` and `member`, of the code; `clause`, which is a
    contract or a member of an impl; `lemma`; and `trusted`, which is all that no crate of the
    project has.
    """
    kind: str
    place: str
    name: str
    constructs: bool = dataclasses.field(default=False, compare=False)


@dataclasses.dataclass
class Definition:
    """A definition: the lines that it takes with the comment above it, and its statements, which
    are its head and its clauses."""
    name: str
    file: "SpecFile"
    around: list
    lines: int
    statements: list = dataclasses.field(default_factory=list)
    constructors: list = dataclasses.field(default_factory=list)

    def targets(self):
        """What its text names, each thing once, in order."""
        names = FreeNames(self.file.resolve)
        around = names.term([item for text in self.around for item in parsed(text)])
        bound = self.head(names, self.statements[0], around)
        for statement in self.statements[1:]:
            items = parsed(statement)
            equals = items.index("=")
            names.term(items[equals + 1:], bound | names.pattern(items[:equals], around))
        own = Target("definition", self.file.name, self.name)
        return [target for target in names.met if target != own]

    def head(self, names, statement, bound):
        """A signature; or the head of a record or data, and after it a line for each part."""
        head, parts = head_and_parts(statement)
        items = parsed(HEAD.sub("", head, count=1))
        inside = names.term(items[1:], bound)
        for part in statements(parts):
            items = parsed(part.strip().removeprefix("pub "))
            colon = items.index(":")
            names.term(items[colon + 1:], inside)
            # A field may be named by those after it.
            inside |= set() if self.constructors else set(items[:colon])
        return bound


def head_and_parts(statement):
    """The head of a record or data, and the lines of its parts; or all of a signature."""
    lines = statement.split("\n")
    ends = [n for n, line in enumerate(lines, 1) if line.endswith(" where")]
    end = ends[0] if ends else len(lines)
    return "\n".join(lines[:end]), lines[end:]


def is_open(line):
    """Whether an import or the head of a module goes on in the next line."""
    bare = line.strip()
    if bare.startswith("module _"):
        return not bare.endswith("where")
    return bare.startswith(("use ", "pub use ")) and "{" in bare and "}" not in bare


def joined(lines):
    """The lines, with each import and each head of a module as one."""
    whole = []
    for line in lines:
        if whole and is_open(whole[-1]):
            whole[-1] += " " + line.strip()
        else:
            whole.append(line)
    return whole


def statements(lines):
    """Joins lines to statements, each of which begins where the first one does."""
    joined, base = [], None
    for line in lines:
        bare = line.strip()
        if not bare or bare.startswith("--"):
            continue
        indent = len(line) - len(line.lstrip())
        base = indent if base is None else base
        if indent <= base and bare[0] not in ")}]":
            joined.append(line)
        else:
            joined[-1] += "\n" + line
    return joined


def imported(line):
    """What a line of imports brings in: by the name here, the module, and the name there if it
    isn't the module itself."""
    if "{" not in line:
        module, _, alias = line.partition(" as ")
        return {(alias or module.rsplit(".", 1)[-1]).strip(): (module.strip(), None)}
    module, _, items = line.partition(".{")
    pairs = [it.split(" as ") for it in items.rstrip("} \n").split(",") if it.strip()]
    return {pair[-1].strip(): (module.strip(), pair[0].strip()) for pair in pairs}


def operators(names):
    """By each word of an operator, such as `if` of if◌then◌else◌, its name."""
    return {part: name for name in names if "◌" in name for part in name.split("◌") if part}


def target_of(module, name):
    """What a name of a module is."""
    root, crate, folder, *path = [*module.split("."), "", ""]
    if root != "Rattle" or not (CRATES / crate).is_dir():
        return Target("trusted", module, name, name in CONSTRUCTORS)
    if folder == "specs" and path[0] == "declared" and "TheConstants" in path:
        return Target("constant", crate, name)
    if folder == "specs" and path[0] == "declared":
        kept = [part for part in path if part and not part.startswith("The")]
        return Target("type", crate, kept[-1], "TheVariants" in path)
    if folder == "specs" and path[0] != "contracts":
        return SpecFile.of(module).target(name)
    return Target("lemma" if folder == "proofs" else "clause", module, name)


class SpecFile:
    """A file of definitions."""

    @staticmethod
    @functools.cache
    def of(module):
        return SpecFile(module)

    def __init__(self, module):
        self.name = module
        _, crate, _, *path = module.split(".")
        self.path = CRATES / crate / "specs" / f"{'/'.join(path)}.antt"
        self.imports, self.definitions, self.maker_of = {}, {}, {}
        self.read(joined(self.path.read_text().split("\n")))
        self.operators = operators([*self.imports, *self.definitions])

    def read(self, lines):
        """Finds the definitions, with the comments above them and the modules around them."""
        current, base, around, comments = None, 0, [], 0
        for line in lines:
            bare = line.strip()
            indent = len(line) - len(line.lstrip())
            begins = indent <= base and bare[:1] not in ")}]"
            if not bare or bare.startswith("--") and begins:
                comments = comments + 1 if bare else 0
                continue
            if begins and indent < base:
                base, around = 0, []
            if begins and bare.startswith(("module _", "mutual")):
                # What is in it is indented.
                current, base = None, 2
                around = [bare.removeprefix("module _").removesuffix("where")]
            elif begins:
                current = self.begin(bare, current, around, comments)
            elif current:
                current.statements[-1] += "\n" + line
            if current:
                current.lines += 1
            comments = 0
        for definition in self.definitions.values():
            self.note_constructors(definition)

    def begin(self, bare, current, around, comments):
        """A statement begins: an import, a new definition, or a clause of the present one."""
        use = re.match(r"(?:pub )?use (.*)", bare)
        if use:
            self.imports.update(imported(use.group(1)))
        if use or bare.startswith(("pub mod ", "infix")):
            return None
        head = HEAD.match(bare)
        items = parsed(bare[head.end():] if head else bare)
        if head or items[1:2] == [":"]:
            current = Definition(items[0], self, around, comments)
            self.definitions[current.name] = current
        current.statements.append(bare)
        return current

    def note_constructors(self, definition):
        head, parts = head_and_parts(definition.statements[0])
        if re.match(r"(pub )?data ", head):
            for part in statements(parts):
                items = parsed(part)
                definition.constructors += items[:items.index(":")]
        self.maker_of.update((name, definition.name) for name in definition.constructors)

    def target(self, name):
        """What this file's own name, or one that it takes in, means."""
        if name in self.imports:
            return target_of(*self.imports[name])
        if name in self.maker_of:
            return Target("definition", self.name, self.maker_of[name], True)
        return Target("definition", self.name, name) if name in self.definitions else None

    def resolve(self, head, members):
        """What a name means in this file."""
        name = self.operators.get(head, head)
        module, there = self.imports.get(name, (None, name))
        if module and there is None:
            return target_of(module, members.partition(".")[0])
        return self.target(name)
