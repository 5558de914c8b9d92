"""The cases as their files describe them: what is run, what comes, and what is wanted."""
import dataclasses
import re
from typing import List, Optional

from casing.texts import bytes_of

USUAL = "replay http://xcap.example.com/xcap"
EVERY = "every run:"
TEXTS = ("input", "output", "errors", "audit", "served input")
FILES = {"input": "in", "output": "out", "served input": "served.in"}
COUNTS = {
    "status": "status",
    "written": "written",
    "repeat": "repeat",
    "errors room": "errors_room",
    "audit room": "audit_room",
    "next fails at": "next_fails_at",
    "connect fails at": "connect_fails_at",
}
RANGES = {"room": "room", "reads fail at": "reads_fail_at"}
RESETS = {"reset after": "reset_after", "lost after": "lost_after"}


class Refused(Exception):
    """The files of a case are not as they have to be."""


@dataclasses.dataclass
class Exchange:
    """The bytes that come on a connection, and those that it has to take."""

    given: bytes
    wanted: bytes
    reset_after: Optional[int] = None
    lost_after: Optional[int] = None


@dataclasses.dataclass
class Run:
    """One run of the program, as README.md beside the cases says."""

    words: str = USUAL
    shows: str = ""
    status: int = 0
    written: Optional[int] = None
    repeat: int = 1
    pieces: str = ""
    reads_fail_at: Optional[int] = None
    room: Optional[int] = None
    errors_room: Optional[int] = None
    audit_room: Optional[int] = None
    broken: str = ""
    listen: str = ""
    next_fails_at: Optional[int] = None
    connect_fails_at: Optional[int] = None
    is_served: bool = False
    only_in_memory: str = ""
    connections: List[Exchange] = dataclasses.field(default_factory=list)
    moves: List[str] = dataclasses.field(default_factory=list)
    peers: List[Exchange] = dataclasses.field(default_factory=list)
    texts: dict = dataclasses.field(default_factory=dict)
    place: str = ""

    def input(self):
        return self.texts["input"] * self.repeat

    def output(self):
        """What the output has to take."""
        most = self.room if self.written is None else self.written
        return self.texts["output"][:most]


class Reader:
    """Reads the runs of one case, and notes the files that they are made of."""

    def __init__(self, folder, name, used):
        self.folder, self.name, self.used = folder, name, used

    def file(self, ending):
        """The bytes of the case's file with this ending; none where it isn't there."""
        path = self.folder / f"{self.name}.{ending}"
        return self.bytes_at(path) if path.is_file() else b""

    def bytes_at(self, path):
        self.used.add(path.resolve())
        return path.read_bytes()

    def runs(self):
        """The runs of the case, in order."""
        text = self.file("case").decode()
        paragraphs = [lines_of(part) for part in re.split(r"\n{2,}", text.strip("\n"))]
        first = []
        if paragraphs[0][:1] == [EVERY]:
            first = paragraphs.pop(0)[1:]
        runs = []
        for number, lines in enumerate(paragraphs, 1):
            place = f"{self.folder.name}/{self.name}"
            where = place if len(paragraphs) == 1 else f"{place}, run {number}"
            runs += Paragraph(self, where).runs(first, lines)
        return runs


def lines_of(text):
    """The lines of a text, which a line feed alone parts; none of an empty one."""
    return text.split("\n") if text else []


class Paragraph:
    """Reads the lines of one paragraph."""

    def __init__(self, reader, place):
        self.reader, self.place = reader, place
        self.run = Run(place=place)
        self.kind = "connection"
        self.given = {}
        self.inherited = set()
        self.ranges = []

    def runs(self, first, lines):
        """The runs of these lines, before which those of every run come."""
        for line in first:
            self.take_line(line)
        self.inherited = set(self.given)
        for line in lines:
            self.take_line(line)
        if self.run.moves and not self.run.only_in_memory:
            raise Refused(f"{self.place}: moves are made in memory alone")
        self.run.texts = {key: self.text(key) for key in TEXTS}
        return self.in_ranges()

    def take_line(self, line):
        """Takes one line, or refuses it."""
        key, colon, value = line.partition(":")
        if not colon:
            raise Refused(f"{self.place}: no value: {line}")
        try:
            self.take(key, (value[1:] if value[:1] == " " else value).rstrip(" "))
        except (ValueError, IndexError, OSError) as fault:
            raise Refused(f"{self.place}: {line[:80]}: {fault}") from fault

    def text(self, key):
        """An inline text, or the file in its place."""
        if key in self.given:
            return bytes(self.given[key])
        return self.reader.file(FILES.get(key, key))

    def in_ranges(self):
        """The run, or one for each number of a range."""
        runs = [self.run]
        for field, numbers in self.ranges:
            runs = [one_of(run, field, number) for run in runs for number in numbers]
        return runs

    def take(self, key, value):
        """Takes one line."""
        if key in ("words", "shows", "pieces", "listen", "broken", "only in memory"):
            setattr(self.run, key.replace(" ", "_"), value)
        elif key in COUNTS:
            setattr(self.run, COUNTS[key], int(value))
        elif key in RANGES:
            self.take_range(RANGES[key], value)
        elif key in ("connection", "peer"):
            self.take_exchange(key)
        elif key == "served":
            self.run.is_served = True
        elif key == "move":
            self.run.moves.append(value)
        elif key in RESETS:
            setattr(self.latest(), RESETS[key], int(value))
        else:
            self.take_text(key, value)

    def take_range(self, field, value):
        begin, dots, end = value.partition("..")
        if dots:
            self.ranges.append((field, range(int(begin), int(end))))
        else:
            setattr(self.run, field, int(value))

    def take_exchange(self, key):
        """Begins one more connection, of the kind that the key names."""
        all_of_kind = self.run.connections if key == "connection" else self.run.peers
        number = len(all_of_kind) + 1
        ending = f"{number}" if key == "connection" else f"peer{number}"
        given, wanted = self.reader.file(f"{ending}.in"), self.reader.file(f"{ending}.out")
        all_of_kind.append(Exchange(given, wanted))
        for side in ("input", "output"):
            self.given.pop(f"{key} {side}", None)
            self.inherited.discard(f"{key} {side}")
        self.kind = key

    def latest(self):
        """The connection that was begun last."""
        return (self.run.connections if self.kind == "connection" else self.run.peers)[-1]

    def take_text(self, key, value):
        """Takes a line of an inline text."""
        part, piece = self.piece(key, value)
        if part in self.inherited:
            self.inherited.remove(part)
            del self.given[part]
        if part in TEXTS:
            self.given.setdefault(part, bytearray()).extend(piece)
            return
        kind, space, side = part.partition(" ")
        if kind not in ("connection", "peer") or side not in ("input", "output"):
            raise Refused(f"{self.place}: no such line: {key}")
        self.given.setdefault(part, bytearray()).extend(piece)
        all_of_kind = self.run.connections if kind == "connection" else self.run.peers
        field = "given" if side == "input" else "wanted"
        setattr(all_of_kind[-1], field, bytes(self.given[part]))

    def piece(self, key, value):
        """The part that a line adds to, and what it adds."""
        if key.endswith(" repeat"):
            count, _, text = value.partition(" ")
            return key[: -len(" repeat")], int(count) * bytes_of(text)
        if key.endswith(" file"):
            return key[: -len(" file")], self.reader.bytes_at(self.reader.folder / value)
        return key, bytes_of(value)


def one_of(run, field, number):
    """The run with one number of a range."""
    place = f"{run.place}, {field.replace('_', ' ')} {number}"
    return dataclasses.replace(run, **{field: number}, place=place)
