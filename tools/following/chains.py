"""Conversations that are followed, and what came of them."""
import time
from dataclasses import dataclass

from following.followers import Followed
from following.requests import ROOT
from following.server import Served
from following.talk import Differs, OneUser, SeveralUsers, Talk
from following.wire import Broken

ROUNDS = 20


@dataclass
class Kind:
    """A kind of conversation: what it is called, and who speaks."""

    name: str
    source: type


ONE, SEVERAL = Kind("one user", OneUser), Kind("several users", SeveralUsers)


class Chain:
    """A conversation of a seed with a server of its own."""

    def __init__(self, program, kind, seed, count, until, folder):
        self.program, self.kind, self.seed, self.count = program, kind, seed, count
        self.until, self.folder = until, folder
        self.talk = None
        self.told, self.made = "", 0

    def name(self):
        return f"seed {self.seed}, {self.kind.name}"

    def follow_each(self):
        """Makes the requests, and follows each change; until the time is over."""
        for _ in range(self.count):
            if time.monotonic() > self.until:
                return
            document = self.talk.step()
            if document is not None:
                self.talk.follow(document)

    def follow_some(self):
        """Goes on while the program's own follower follows a document."""
        before = len(self.talk.said)
        for document in self.talk.source.documents[:3]:
            left = before + self.count // 4 - len(self.talk.said)
            steps = max(1, left // (ROUNDS + 1))
            fault = Followed(self.talk, document, steps).run(self.program, ROUNDS)
            if fault:
                raise Differs(fault)

    def converse(self):
        self.follow_each()
        self.told, self.made = self.counts(), len(self.talk.said)
        self.talk.check_all()
        self.talk.check_replay(self.program)
        self.follow_some()
        self.talk.check_all()

    def run(self):
        """What came of it, in words, and whether nothing was otherwise than it has to be."""
        with Served(self.program, ROOT) as server:
            server.wait_until_there()
            self.talk = Talk(self.kind.source(self.seed), server.wire)
            try:
                self.converse()
            except (Differs, Broken) as fault:
                return self.failed(fault), False
        more = len(self.talk.said) - self.made
        return f"{self.told}, {more} more requests under `follow`", True

    def counts(self):
        talk = self.talk
        over = " (the time was over)" if len(talk.said) < self.count else ""
        return (
            f"{len(talk.said)} requests{over}, {talk.last} changes, {talk.applied} notices applied,"
            f" {talk.forgotten} of versions no longer told"
        )

    def failed(self, fault):
        file = self.folder / f"random-{self.seed}-{self.kind.name.replace(' ', '-')}.http"
        self.talk.write(file)
        said = str(fault) or "the connection ended before its reply"
        return f"step {len(self.talk.said)}: {said} (the conversation is {file})"
