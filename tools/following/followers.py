"""The program's own follower, whose connections are handed on to the server."""
import socket
import subprocess
import threading

HEAD_END = b"\r\n\r\n"


class Relay:
    """Listens at a port of the loopback, and answers each request by what `answer` gives for it."""

    def __init__(self, answer):
        self.answer = answer
        self.listener = socket.create_server(("127.0.0.1", 0))
        self.listener.settimeout(60)
        self.port = self.listener.getsockname()[1]
        self.fault = None
        self.thread = threading.Thread(target=self.run, daemon=True)

    def __enter__(self):
        self.thread.start()
        return self

    def __exit__(self, *_):
        # A listener that is shut down ends the wait for a connection.
        self.listener.shutdown(socket.SHUT_RDWR)
        self.thread.join()
        self.listener.close()

    def run(self):
        while True:
            try:
                line, _ = self.listener.accept()
            except OSError:
                return
            with line:
                try:
                    self.serve(line)
                except OSError:
                    # Whoever asked is gone.
                    pass
                except Exception as fault:  # pylint: disable=broad-except
                    self.fault = self.fault or fault

    def serve(self, line):
        line.settimeout(60)
        request = b""
        while HEAD_END not in request:
            more = line.recv(1 << 16)
            if not more:
                return
            request += more
        line.sendall(self.answer(request))


class Followed:
    """A document that `follow` follows through a conversation, which goes on before each of its
    requests but for those that it makes as changes aren't reported."""

    def __init__(self, talk, document, steps):
        self.talk, self.document, self.steps = talk, document, steps
        self.is_refetch = False
        self.tags = []

    def answer(self, request):
        is_feed = b" /xcap/~feed/" in request
        if not self.is_refetch:
            for _ in range(self.steps):
                self.talk.step()
            self.tags.append("-")
        reply = self.talk.wire.ask(request)
        self.is_refetch = is_feed and reply.status == 410
        self.tags[-1] = self.document.present[0] or "-"
        return reply.head + reply.body

    def run(self, program, rounds):
        """What `follow` did otherwise than it has to; None for nothing."""
        with Relay(self.answer) as relay:
            root = f"http://127.0.0.1:{relay.port}/xcap"
            home, path = self.document.home, self.document.path
            words = [program, "follow", home, root, path, str(rounds)]
            ran = subprocess.run(words, stdin=subprocess.DEVNULL, capture_output=True)
        if relay.fault:
            raise relay.fault
        # The first request isn't one of a round.
        due = "".join(f"{tag}\n" for tag in self.tags[1:]).encode()
        due += self.document.present[1] or b""
        if (ran.returncode, ran.stdout) == (0, due):
            return None
        return f"follow of {path} ended with {ran.returncode}: {ran.stderr + ran.stdout!r}"
