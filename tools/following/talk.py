"""A conversation with a server, and what is known of the versions of its documents."""
import itertools
import pathlib
import subprocess

from following import edits, requests, trees
from following.choices import Choices
from following.notices import Unfit, applied
from following.requests import Request, path_of
from following.wire import replies_in

MODES = ["xcap-patching", "aggregate"]
NAMES = ["index", "book", "home"]
GONE = (None, None)


class Differs(Exception):
    """Something that the server does otherwise than it has to."""


class Document:
    """A document: whose it is, and its versions, each a tag and a text, since it was made."""

    def __init__(self, home, name):
        self.home, self.name = home, name
        self.path = path_of(home, name)
        self.prefix = ""
        self.versions = []
        # Those since which the server reports changes; the tag of the last other one; their count.
        self.told = []
        self.untold = None
        self.was_untold = 0

    @property
    def present(self):
        return self.versions[-1] if self.versions else GONE

    def get(self, path=None, steps=()):
        head = f"GET /xcap/{path or self.path}{requests.node_of(steps)} HTTP/1.1\r\n"
        return f"{head}Host: x\r\nX-XCAP-User: {self.home}\r\n\r\n".encode()

    def feed(self, mode, tag):
        return self.get(f"~feed/{mode}/{tag}/{self.path}")


class OneUser:
    """The requests of one user, each of which edits one of three documents."""

    def __init__(self, seed):
        self.choices = Choices(seed)
        self.documents = [Document("sip:joe@example.com", name) for name in NAMES]

    def next(self):
        """A document, the user who asks, and the request."""
        document = self.choices.one_of(self.documents)
        if document.present == GONE:
            document.prefix = self.choices.one_of(requests.documents.PREFIXES)
            return document, document.home, requests.whole(self.choices, document.prefix)
        return document, document.home, self.edit(document)

    def edit(self, document):
        return requests.edit(self.choices, document.prefix)


class SeveralUsers(OneUser):
    """The requests of three users, of all kinds, now and then with a condition, or on a document
    of another one."""

    def __init__(self, seed):
        super().__init__(seed)
        homes = [f"sip:{it}@example.com" for it in ("joe", "ann", "bob")]
        self.homes = homes
        self.documents = [Document(home, name) for home in homes for name in NAMES[:2]]

    def next(self):
        document, user, request = super().next()
        tags = [tag for tag, _ in document.versions]
        request.conditions = requests.condition(self.choices, tags)
        if self.choices.below(20) == 0:
            user = self.choices.one_of(self.homes)
        return document, user, request

    def edit(self, document):
        return requests.any_edit(self.choices, document.prefix)


def tree_of(version):
    tag, text = version
    return tag, text and trees.read(text)


def is_in(root, steps):
    """Whether the document is there, and in it what the steps select, if there are some."""
    return root is not None and (not steps or edits.part(root, steps) is not None)


def fault_of_conditions(conditions, tag, was_there):
    """Which condition doesn't hold: `*` is about the node, and a tag is that of its document."""
    for name, value in conditions.items():
        is_met = was_there if value == "*" else f'"{tag}"' in value
        if is_met != (name == "If-Match"):
            return f"{name}: {value} doesn't hold"
    return None


class Talk:
    """What was said, by whom it was chosen, and what came of it."""

    def __init__(self, source, wire):
        self.source, self.wire = source, wire
        self.said = []
        self.answers = []
        self.last = 0
        self.applied = self.forgotten = 0

    def step(self):
        """Makes one more request. The document that it changed, if it did."""
        document, user, request = self.source.next()
        sent = request.bytes_of(user, document.home, document.name)
        self.said.append(sent)
        reply = self.wire.ask(sent)
        self.answers.append((reply.status, reply.tag))
        before, now = document.present, self.got(document)
        if not reply.is_success:
            if now != before:
                raise Differs(f"answered {reply.status}, and it changed {document.path}")
            return None
        self.last += 1
        self.check(document, user, request, reply, before, now)
        self.keep(document, now)
        return document

    def got(self, document):
        """The version that the server holds: its tag and its text."""
        reply = self.wire.ask(document.get())
        if reply.status == 404:
            return GONE
        if reply.status != 200:
            raise Differs(f"GET of {document.path}: {reply.status}")
        return reply.tag, reply.body

    def check(self, document, user, request, reply, before, now):
        """The server did what it answered."""
        roots = [text and trees.read(text) for _, text in (before, now)]
        was_there = is_in(roots[0], request.steps)
        fault = (
            self.fault_of_answer(request, reply, now, was_there)
            or fault_of_conditions(request.conditions, before[0], was_there)
            or edits.fault_of(request, document.prefix, *roots)
            or self.fault_of_node(document, request)
        )
        if user != document.home:
            fault = f"{user} may not"
        if fault:
            what = " ".join([request.method, document.path, *request.steps])
            raise Differs(f"{what} was answered {reply.status}: {fault}")

    def fault_of_answer(self, request, reply, now, was_there):
        """What is wrong with the status and the tag of an accepted request."""
        status = 201 if request.method == "PUT" and not was_there else 200
        due = None if now == GONE else str(self.last)
        if (reply.status, reply.tag, now[0]) != (status, due, due):
            return f"due {status} and the tag {due}, came the tags {reply.tag} and {now[0]}"
        return None

    def fault_of_node(self, document, request):
        """What a GET of the node of an accepted request gives otherwise."""
        if not request.steps:
            return None
        reply = self.wire.ask(document.get(steps=request.steps))
        if request.method == "DELETE":
            return None if reply.status == 404 else f"a GET of what was deleted: {reply.status}"
        if reply.status != 200:
            return f"a GET of what was put: {reply.status}"
        given = Request("PUT", request.steps, "", reply.body.decode())
        put = (edits.put_by(it, document.prefix) for it in (given, request))
        return None if next(put) == next(put) else "a GET of it gives something else"

    def keep(self, document, now):
        if now == GONE:
            document.versions = []
            return
        if not document.versions:
            # What went before it was gone isn't reported any more.
            self.forget(document, document.told)
        document.versions.append(now)
        document.told.append(now)

    def forget(self, document, versions):
        if versions:
            document.untold = versions[-1][0]
            document.was_untold += len(versions)
            document.told = document.told[len(versions) :]

    def follow(self, document):
        """Follows a changed document, from each version since which the server reports changes."""
        asked = [(mode, version) for version in document.told for mode in MODES]
        replies = self.wire.ask_all([document.feed(mode, it[0]) for mode, it in asked])
        count = self.count_untold(document, [it.status != 410 for it in replies])
        present = tree_of(document.present)
        for (mode, version), reply in list(zip(asked, replies))[count * len(MODES) :]:
            self.lead(document, mode, version, reply, present)
        self.forget(document, document.told[:count])
        self.check_untold(document)
        self.forgotten += len(MODES) * document.was_untold

    @staticmethod
    def count_untold(document, is_told):
        """How many of the first versions aren't known now: none of a document that is gone, and
        never the newest change."""
        versions = len(document.told)
        count = is_told.index(True) // len(MODES) if True in is_told else versions
        most = max(versions - 2, 0) if document.versions else 0
        untold = count * len(MODES)
        if count > most or any(is_told[:untold]) or not all(is_told[untold:]):
            told = [it for it, _ in document.told[count:]]
            raise Differs(f"{document.path} isn't told from each of {told} on, or from too few")
        return count

    def check_untold(self, document):
        """What isn't known any more stays so; of a document that is gone, only that is reported."""
        untold = document.untold if document.versions else None
        if untold and self.wire.ask(document.feed(MODES[0], untold)).status != 410:
            raise Differs(f"{document.path} is told from {untold} on again")

    def lead(self, document, mode, version, reply, present):
        """A notice leads a copy of a version to the present one."""
        where = f"{document.path} from {version[0]} in {mode}"
        if reply.status != 200:
            raise Differs(f"{where}: {reply.status}")
        try:
            led = applied(reply.body, document.path, tree_of(version))
        except Unfit as fault:
            raise Differs(f"{where}: {fault}: {reply.body.decode()}") from fault
        if led != present:
            raise Differs(f"{where} leads elsewhere: {reply.body.decode()}")
        self.applied += 1

    def check_all(self):
        """The server holds all documents as they are known."""
        for document in self.source.documents:
            if self.got(document) != document.present:
                raise Differs(f"{document.path} isn't held as it was acknowledged")

    def check_replay(self, program):
        """The same requests on one connection of `replay` have the same answers."""
        words = [program, "replay", requests.ROOT]
        ran = subprocess.run(words, input=b"".join(self.said), capture_output=True)
        replies, rest = replies_in(ran.stdout)
        answers = [(it.status, it.tag) for it in replies]
        if (ran.returncode, answers, rest) != (0, self.answers, b""):
            same = itertools.takewhile(lambda it: it[0] == it[1], zip(answers, self.answers))
            at = len(list(same)) + 1
            raise Differs(f"replay, with status {ran.returncode}, answers request {at} otherwise")

    def write(self, file):
        pathlib.Path(file).write_bytes(b"".join(self.said))
