"""How long a restart takes, by the size of the journal."""
import os
import pathlib
import re
import time

from restarting.documents import document_path, text_of
from restarting.server import Kept

LISTS, SERVICES, ELEMENT = b"resource-lists", b"rls-services", b"xcap-el"
ENTRY = b'<entry uri="sip:friend%d@example.com"><display-name>Friend %d</display-name></entry>'
SERVICE = (
    b'<rls-services xmlns="urn:ietf:params:xml:ns:rls-services"><service uri="sip:friends-%d@'
    b'example.com"><resource-list>http://xcap.example.com/xcap/resource-lists/users/%s/index/~~/'
    b"resource-lists/list</resource-list><packages><package>presence</package></packages>"
    b"</service></rls-services>"
)


def block(text):
    return len(text).to_bytes(4, "big") + text


def record(target, user, media, body):
    """The record of a PUT."""
    named = {b"X-XCAP-User": user, b"Content-Type": b"application/%s+xml" % media}
    head = [(b"Host", b"xcap.example.com"), *named.items()]
    fields = b"".join(block(name) + block(value) for name, value in head)
    path = block(b"/xcap/" + target)
    return block(b"\1" + path + len(head).to_bytes(2, "big") + fields + block(body))


def put(number, size):
    """The record of a PUT of a document of about this many bytes."""
    entry = b'<entry uri="sip:%d@example.com"/>'
    entries = b"".join(entry % n for n in range(max(1, size // 36)))
    body = (
        b'<resource-lists xmlns="urn:ietf:params:xml:ns:resource-lists"><list name="%d">' % number
        + entries
        + b"</list></resource-lists>"
    )
    return record(b"resource-lists/users/joe/index%d" % (number % 100), b"joe", LISTS, body)


def write_journal(file, size, length):
    """A journal of at least this many bytes, whose documents have about this length."""
    count = 0
    with open(file, "wb") as made:
        while made.tell() < size:
            count += 1
            made.write(put(count, length))
    return count


def restarts(report, program, folder, sizes=(1, 10, 100)):
    old, new = folder / "long", folder / "long.new"
    for size in sizes:
        for length in (200, 20_000):
            count = write_journal(old, size * 1_000_000, length)
            began = time.monotonic()
            kept = Kept(program, old, new)
            kept.connect()
            took = time.monotonic() - began
            same = kept.ask("GET", "resource-lists/users/joe/index1", "joe")[0] == 200
            kept.end()
            report.holds(
                f"a restart from {size} MB, {count} records",
                same and old.read_bytes() == new.read_bytes(),
                f"{took:.2f} s",
            )


def of_users(users, edits):
    """The records of this many users: of each a list of 20 friends and a service, and then as many
    edits as given, each of which puts one of the friends anew."""
    friends = b"".join(ENTRY % (n, n) for n in range(20))
    body = text_of([]).encode().replace(b"</list>", friends + b"</list>")
    names = [b"sip:user%d@example.com" % n for n in range(users)]
    for number, name in enumerate(names):
        yield record(b"resource-lists/users/%s/index" % name, name, LISTS, body)
        yield record(
            b"rls-services/users/%s/index" % name, name, SERVICES, SERVICE % (number, name)
        )
    step = b"~~/resource-lists/list/entry%%5B@uri=%%22sip:friend%d@example.com%%22%%5D"
    for number in range(edits):
        for name in names:
            at = b"resource-lists/users/%s/index/" % name + step % (number % 20)
            yield record(at, name, ELEMENT, ENTRY % (number % 20, number))


def memory_of(kept):
    """What it holds of memory, in MB."""
    status = pathlib.Path(f"/proc/{kept.process.pid}/status").read_text()
    return int(re.search(r"VmRSS:\s+(\d+)", status)[1]) / 1000


def processor_seconds(kept):
    """How long processors have worked for it."""
    text = pathlib.Path(f"/proc/{kept.process.pid}/stat").read_text()
    counts = text.rpartition(")")[2].split()[11:13]
    return sum(map(int, counts)) / os.sysconf("SC_CLK_TCK")


def users(report, program, folder, sizes=((100, 0), (100, 1_000), (500, 0), (500, 200))):
    """What the users of a process take. With 500 it is full, by two documents each."""
    old, new = folder / "users", folder / "users.new"
    for count, edits in sizes:
        old.write_bytes(b"".join(of_users(count, edits)))
        began = time.monotonic()
        kept = Kept(program, old, new)
        kept.connect()
        took, worked = time.monotonic() - began, processor_seconds(kept)
        path = f"resource-lists/users/sip:user{count - 1}@example.com/index"
        status, _, text = kept.ask("GET", path, f"sip:user{count - 1}@example.com")
        report.holds(
            f"{count} users with a list of 20 entries, a service, and {edits} edits each",
            status == 200,
            f"lists of {len(text)} bytes, a journal of {old.stat().st_size / 1e6:.1f} MB, a restart"
            f" of {took:.1f} s, {worked:.1f} s of a processor, {memory_of(kept):.0f} MB of memory",
        )
        kept.end()


def appends(report, program, folder, sizes=(0, 10, 100)):
    """An edit costs its record, however long the journal is."""
    old, new = folder / "long", folder / "long.new"
    body = text_of(["sip:a@example.com"])
    for size in sizes:
        write_journal(old, size * 1_000_000, 20_000)
        kept = Kept(program, old, new)
        kept.connect()
        began = time.monotonic()
        for _ in range(800):
            kept.ask("PUT", document_path("ann"), "ann", body, "resource-lists")
        took = time.monotonic() - began
        kept.end()
        report.note(f"800 edits after a journal of {size} MB: {took:.2f} s")
