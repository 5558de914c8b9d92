"""One run of the program in one way: what it leaves beside what is wanted."""
import contextlib
import os
import re
import resource
import signal
import subprocess
import time

from casing import network
from casing.clients import LISTENING, Client
from casing.peers import Peer, Served
from casing.streams import LATE, carry, input_of, outputs_of
from casing.texts import difference

TOLD = re.compile(rb"^[0-9]+ [^ \n]*/users/[^\n]*\n?", re.M)


class Trial:
    """A run of a program in one way of cutting."""

    def __init__(self, program, run, cut, seconds):
        self.program, self.run, self.cut = program, run, cut
        self.until = time.monotonic() + seconds
        self.address = network.own_address() if needs_address(run) else None
        self.others = []

    def words(self):
        line = self.replaced(self.run.words.encode()).decode()
        return line.split(" ") if line else []

    def replaced(self, given):
        return network.replaced(given, self.address) if self.address else given

    def differences(self):
        """What differs, part by part, as texts."""
        with contextlib.ExitStack() as ended:
            if self.run.listen == "fails":
                ended.enter_context(network.listening(self.address))
            if self.run.is_served:
                peer = Served(self.program, self.run, self.address, self.until)
                self.begin(ended, "peer", peer, [])
            elif self.run.peers:
                peer = Peer(self.run, self.cut, self.address, self.until)
                self.begin(ended, "peer", peer, self.run.peers)
            return self.differences_beside(ended)

    def differences_beside(self, ended):
        """The same, where a peer of the program began."""
        outputs, limit = outputs_of(self.run)
        for output in outputs:
            ended.callback(output.close)
        end, feeder = input_of(self.run, self.cut)
        ended.callback(feeder.end)
        process = self.started(end, outputs, limit)
        ended.callback(end_of, process)
        if self.run.connections and self.run.listen != "fails":
            client = Client(self.run, self.cut, self.address, process, self.until)
            self.begin(ended, "", client, self.run.connections)
        return self.compared(process, feeder, outputs)

    def begin(self, ended, kind, other, exchanges):
        """Begins what is at the other ends of the program's connections."""
        ended.callback(other.end)
        other.start()
        self.others.append((kind, other, exchanges))

    def started(self, end, outputs, limit):
        """The process, with the limits that the run asks for."""
        limits = [(resource.RLIMIT_FSIZE, limit)] if limit is not None else []
        if self.run.next_fails_at == 1:
            limits.append((resource.RLIMIT_NOFILE, LISTENING))
        ends = [end, *(output.end for output in outputs)]
        return started([self.program, *self.words()], ends, limits)

    def compared(self, process, feeder, outputs):
        """What differs once the process and what is at its connections have ended."""
        cause = carry(feeder, outputs, self.until) or waited(process, self.until)
        end_of(process)
        for _, other, _ in self.others:
            other.end()
        causes = [f"  it was ended: {cause}"] if cause else []
        return [*causes, *self.unlike(process.returncode, *(output.bytes() for output in outputs))]

    def unlike(self, status, output, errors):
        """The parts that differ."""
        run = self.run
        parts = [("status", str(run.status).encode(), str(status).encode())]
        wanted = b"" if run.broken == "output" else self.replaced(run.output())
        parts.append(("output", wanted, output))
        parts += self.unlike_errors(errors)
        for kind, other, exchanges in self.others:
            for number, (exchange, came) in enumerate(zip(exchanges, other.came), 1):
                parts.append((f"{kind}{number}.out", self.replaced(exchange.wanted), came))
        return [difference(*part) for part in parts if part[1] != part[2]]

    def unlike_errors(self, came):
        """The stream for errors has the lines of the audit and the others, in any order."""
        run = self.run
        if run.broken == "errors":
            return []
        errors, audit = self.replaced(run.texts["errors"]), self.replaced(run.texts["audit"])
        errors, audit = errors[: run.errors_room], audit[: run.audit_room]
        if came in (errors + audit, audit + errors):
            return []
        told = b"".join(found.group() for found in TOLD.finditer(came))
        others = TOLD.sub(b"", came)
        return [("errors", errors, others), ("audit", audit, told)]


def needs_address(run):
    return network.WRITTEN.decode() in run.words


def started(command, ends, limits):
    """A process with these ends as its streams, under these limits."""

    def limited():
        signal.signal(signal.SIGXFSZ, signal.SIG_IGN)
        for kind, most in limits:
            resource.setrlimit(kind, (most, resource.getrlimit(kind)[1]))

    try:
        before = limited if limits else None
        return subprocess.Popen(
            command, stdin=ends[0], stdout=ends[1], stderr=ends[2], preexec_fn=before
        )
    finally:
        for end in ends:
            os.close(end)


def waited(process, until):
    """Waits until the process ends. Why that isn't waited for, if it isn't."""
    try:
        process.wait(max(0, until - time.monotonic()))
    except subprocess.TimeoutExpired:
        return LATE
    return ""


def end_of(process):
    if process.poll() is None:
        process.kill()
        process.wait()
