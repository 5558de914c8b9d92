"""The commands whose memory is refused. Each says what came of a run, and what is unlawful in that.

A run in which nothing is refused says what is due. One in which a request for memory is refused is
the same but for what docs/OPERATIONS.md says of memory that runs out: it ends with 7 and its words;
or a request is answered by the fixed 503, its connection ends, and nothing has changed.
"""
from following.followers import Relay
from following.server import Ended, Served
from following.wire import replies_in
from refusing import requests

NO_MEMORY = b"HTTP/1.1 503 Service Unavailable\r\nContent-Length: 0\r\nConnection: close\r\n\r\n"
WORDS = "out of memory\n"


class Unlawful(Exception):
    """What a run did that it may not do."""


def need(holds, why):
    if not holds:
        raise Unlawful(why)


def ended_without_memory(status, told):
    """What a run is called that ended as memory ran out."""
    need((status, told) == (7, WORDS), f"status {status}, told {told!r}")
    return "out of memory"


def check_audit(told, due, is_refused):
    """The audit says what was done; the first of it alone where it was the audit that got no
    memory."""
    need(told == (due if is_refused else due[: len(told)]), f"the audit tells {told}")


def bytes_of(reply):
    return reply.head + reply.body


class Replay:
    """The input as one connection: its replies up to one by 503, after which nothing comes."""

    name = "replay"
    is_one = True

    def __init__(self, program):
        self.words = [program, "replay", requests.ROOT]
        self.source = b"".join(requests.CONVERSATION)
        self.due = None

    def prepare(self, refusing):
        status, written, told = refusing.run(self.words, self.source)
        self.due = replies_in(written)[0], told.splitlines()
        need(status == 0 and len(self.due[0]) == len(requests.CONVERSATION), "not all replied to")

    def outcome(self, refusing):
        status, written, told = refusing.run(self.words, self.source)
        if status:
            need(not written, f"status {status}, and it wrote {written!r}")
            return ended_without_memory(status, told)
        replies, rest = replies_in(written)
        need(not rest, f"no reply: {rest!r}")
        is_refused = replies and bytes_of(replies[-1]) == NO_MEMORY
        given = replies[:-1] if is_refused else replies
        need(given == self.due[0][: len(given)], "replies that are not due")
        need(is_refused or len(given) == len(self.due[0]), "replies are lacking")
        requests_of = zip(given, requests.CONVERSATION)
        changes = sum(it.is_success and asked[:3] != b"GET" for it, asked in requests_of)
        check_audit(told.splitlines(), self.due[1][:changes], is_refused)
        return "503" if is_refused else "served"


class Fetch:
    """A document of a scripted peer, written whole or not at all."""

    name = "fetch"
    is_one = True
    reply = (
        "HTTP/1.1 200 OK\r\nContent-Type: application/resource-lists+xml\r\n"
        f'ETag: "5"\r\nContent-Length: {len(requests.LISTS)}\r\n\r\n{requests.LISTS}'
    ).encode()

    def __init__(self, program):
        self.program = program
        self.due = None

    def run(self, refusing):
        asked = []

        def answer(request):
            asked.append(request.partition(b"\r\nHost: ")[0])
            return self.reply

        with Relay(answer) as relay:
            root = f"http://127.0.0.1:{relay.port}/xcap"
            words = [self.program, "fetch", requests.JOE, root, requests.INDEX]
            return *refusing.run(words), asked

    def prepare(self, refusing):
        self.due = self.run(refusing)
        need(self.due[:3] == (0, requests.LISTS.encode(), ""), f"not fetched: {self.due}")

    def outcome(self, refusing):
        status, written, told, asked = self.run(refusing)
        need(asked == self.due[3][: len(asked)], f"it asked {asked}")
        if status == 0:
            need((written, told, asked) == self.due[1:], f"it wrote {written!r}, told {told!r}")
            return "done"
        need(not written, f"status {status}, and it wrote {written!r}")
        return ended_without_memory(status, told)


class Follow:
    """Two rounds on a server that makes a change before each: the tags that were held, up to where
    memory was refused; and where it wasn't, the server's document."""

    name = "follow"
    is_one = True
    changes = [[], [requests.put_entry("sip:b@x")], [requests.put_entry("sip:c@x")]]

    def __init__(self, program):
        self.program = program
        self.due = None

    def run(self, refusing):
        """What came of a run, and the document of the server after it."""
        with Served(self.program, requests.ROOT) as server:
            server.wait_until_there().wire.ask(requests.PUT_LISTS)
            left = list(self.changes)

            def answer(request):
                for change in left.pop(0) if left else []:
                    need(server.wire.ask(change).is_success, "a change of the script is refused")
                return bytes_of(server.wire.ask(request))

            with Relay(answer) as relay:
                root = f"http://127.0.0.1:{relay.port}/xcap"
                words = [self.program, "follow", requests.JOE, root, requests.INDEX, "2"]
                ran = refusing.run(words)
            need(relay.fault is None, f"the server: {relay.fault}")
            while left:
                answer(requests.asking("GET", requests.INDEX))
            return *ran, server.wire.ask(requests.asking("GET", requests.INDEX)).body

    def prepare(self, refusing):
        status, written, told, held = self.due = self.run(refusing)
        need((status, written, told) == (0, b"2\n3\n" + held, ""), f"not followed: {self.due}")

    def outcome(self, refusing):
        status, written, told, held = self.run(refusing)
        need(held == self.due[3], "the server's document is another one")
        if status == 0:
            need((written, told) == self.due[1:3], f"it wrote {written!r}, told {told!r}")
            return "done"
        need(written in (b"", b"2\n", b"2\n3\n"), f"status {status}, and it wrote {written!r}")
        return ended_without_memory(status, told)


class Keep:
    """A server with a journal: each request is answered as it is due, at the second time where the
    first answer is 503; and its journal and a restart from it have all that was accepted."""

    name = "keep"
    is_one = True

    def __init__(self, program):
        self.program = program
        self.old = b""
        self.due = None

    def start(self, folder, journal, around=None):
        """A process that reads this journal; the files of the new one and of its messages."""
        files = [folder / name for name in ("old", "new", "told")]
        files[0].write_bytes(journal)
        with open(files[0], "rb") as old, open(files[1], "wb") as new, open(files[2], "wb") as told:
            streams = {"stdin": old, "stdout": new, "stderr": told}
            made = Served(self.program, requests.ROOT, "keep", around, **streams)
        return made, *files[1:]

    def prepare(self, refusing):
        server, new, _ = self.start(refusing.folder, b"")
        with server:
            server.wait_until_there()
            need(all(server.wire.ask(it).is_success for it in requests.BEFORE), "not made")
        self.old = new.read_bytes()
        self.due = self.run(refusing)[1:]
        need(not any(it.status == 503 for it in self.due[0]), "503 while there is memory")

    def run(self, refusing):
        """What came of a run that listened: what it is called, its answers, its journal and what
        it told."""
        server, new, told = self.start(refusing.folder, self.old, refusing.around)
        with server:
            server.wait_until_there()
            asked = [*requests.CONVERSATION, *requests.SHOWING]
            answers, refused = zip(*(self.ask(server.wire, it) for it in asked))
        need(sum(refused) <= 1, "more than one request was answered 503")
        word = "503" if any(refused) else "served"
        return word, answers, new.read_bytes(), told.read_text().splitlines()

    @staticmethod
    def ask(wire, request):
        """The answer to a request, and whether it came at the second time, after a 503."""
        reply = wire.ask(request)
        if reply.status != 503:
            return reply, False
        need(bytes_of(reply) == NO_MEMORY, f"not the fixed 503: {reply}")
        return wire.ask(request), True

    def outcome(self, refusing):
        try:
            word, answers, journal, told = self.run(refusing)
        except Ended as ended:
            return self.outcome_before_it_listened(refusing, *ended.args)
        for number, (answer, due) in enumerate(zip(answers, self.due[0]), 1):
            need(answer == due, f"the answer to request {number} isn't due: {bytes_of(answer)}")
        need(journal == self.due[1], "the journal isn't due")
        check_audit(told, self.due[2], word == "503")
        self.check_restart(refusing.folder, journal)
        return word

    def outcome_before_it_listened(self, refusing, status):
        new, told = (refusing.folder / name for name in ("new", "told"))
        need(self.old.startswith(new.read_bytes()), "the new journal begins otherwise")
        return ended_without_memory(status, told.read_text())

    def check_restart(self, folder, journal):
        server, _, _ = self.start(folder, journal)
        with server:
            server.wait_until_there()
            shown = [server.wire.ask(it) for it in requests.SHOWING]
        due = list(self.due[0][-len(shown) :])
        need(shown == due, "a restart from the journal shows something else")


class Lent:
    """GETs of what is stored, of each of which every request for more than `above` bytes is refused
    from one on. Smaller ones read the request and its target; the reply needs no more, and is the
    one that is due: from a print that is kept, or from a tree that has none."""

    name = "lent"
    is_one = False
    above = 1_024

    def __init__(self, program):
        self.program = program
        self.due = None

    def started(self, refusing):
        """A server that holds a short document and a long one, that without a print."""
        server = Served(self.program, requests.ROOT, around=refusing.around)
        server.wait_until_there()
        need(all(server.wire.ask(it).is_success for it in requests.TO_LEND), "not made")
        return server

    def prepare(self, refusing):
        with self.started(refusing) as server:
            self.due = [server.wire.ask(it) for it in requests.LENT]
        need(all(it.status == 200 for it in self.due), "not found")

    def outcome(self, refusing):
        with self.started(refusing) as server:
            replies = [self.ask(refusing, server, it) for it in requests.LENT]
        for number, (reply, due) in enumerate(zip(replies, self.due), 1):
            need(reply == due, f"the answer to GET {number} isn't due: {reply.head}")
        return "served"

    def ask(self, refusing, server, request):
        with refusing.refused_from(refusing.number, self.above):
            return server.wire.ask(request)


COMMANDS = [Replay, Lent, Fetch, Follow, Keep]
