"""HAProxy, Apache, and the reader that isn't a user."""
import shutil

from deployment import crowd
from deployment.asking import Client, ELEMENT, entry, friends, home, sip
from deployment.clients import byte_by_byte, silent
from deployment.processes import SERVICE, SERVICES, spread
from deployment.stage import free_port

FORGED = f"X-XCAP-User: {sip('joe')}"


def own_and_others(report, stage, **how):
    """What every proxy has to do."""
    joe, ann = Client(stage, "joe", **how), Client(stage, "ann", **how)
    report.status("joe puts a list", joe.put(home("joe"), friends("bob")), 201, '"1"')
    report.status("he reads one entry", joe.get(entry("joe", "bob")), 200, '<entry uri="sip:bob')
    added = f'<entry uri="{sip("eve")}"/>'
    report.status("he puts an entry", joe.put(entry("joe", "eve"), added, media=ELEMENT), 201)
    report.status("he asks for what he has", joe.get(home("joe"), 'If-None-Match: "2"'), 304)
    report.status("ann says that she is joe, and reads it", ann.get(home("joe"), FORGED), 403)
    other = Client(stage, "joe@example.com", **how).get(home("joe"), FORGED)
    report.holds("a name that stands for no user", other.status in (401, 403), str(other.status))
    report.status("nobody is asked for a password", Client(stage).get(home("joe"), FORGED), 401)
    wrong = Client(stage, "joe", password="another password", **how).get(home("joe"))
    report.status("with a wrong password", wrong, 401)
    most = friends("bob").ljust(262_144)
    report.status("a body of 262,144 bytes", joe.put(home("joe"), most), 200)
    report.status("a body of 262,145 bytes", joe.put(home("joe"), most + " "), 413)
    fields = [f"X-Field-{n}: {'a' * 1_000}" for n in range(16)]
    report.status("a head of 16 fields of 1,000 bytes", joe.get(home("joe"), *fields), 400)
    long = joe.get(f"{home('joe')}?{'a' * 15_000}")
    report.holds("an address of 15,000 bytes", long.status in (400, 414), str(long.status))


def continued(report, stage, **how):
    """`Expect: 100-continue`: the proxy answers it, and nobody waits for xcapd's."""
    joe = Client(stage, "joe", **how)
    answer = joe.put(home("joe"), friends("bob"), "Expect: 100-continue")
    seen = f"{answer.status} after {answer.seconds:.2f} s"
    is_so = answer.status == 200 and answer.seconds < 0.9
    report.holds("a client that waits for 100 (Continue)", is_so, seen)


def slow(report, stage):
    lines = [silent(stage) for _ in range(25)]
    status, seconds = byte_by_byte(stage)
    answer = Client(stage, "ann").get(home("joe"))
    for line in lines:
        line.close()
    is_so = status == 200 and answer.seconds < 3
    seen = f"{status} after {seconds:.0f} s"
    report.holds("25 silent clients, and one that sends a byte at a time", is_so, seen)


def start_before_server(report, stage, program, settings):
    """Starts xcapd and a proxy before it, if it is there, and returns the port of xcapd."""
    if not shutil.which(program):
        report.note("it isn't there, so nothing was tried")
        return None
    port = free_port()
    stage.serve_told(port)
    stage.start_proxy(settings, [port])
    return port


def by_haproxy(report, stage):
    report.part("HAProxy in the place of nginx")
    port = start_before_server(report, stage, "haproxy", "haproxy/xcapd.cfg")
    if port is None:
        return
    own_and_others(report, stage)
    continued(report, stage)
    slow(report, stage)
    for name in (f"user{n}" for n in range(20)):
        Client(stage, name).put(home(name), friends("bob"))
    counts = crowd.crowd(stage, port)
    what = f"{crowd.CLIENTS} clients at once, the server busy for {crowd.BUSY} s: each is answered"
    report.holds(what, set(counts) == {"200"}, crowd.shown(counts))
    ports = [free_port(), free_port()]
    for it in ports:
        stage.serve_told(it)
    stage.start_proxy("haproxy/xcapd.cfg", ports)
    spread(report, stage, ports)


def by_apache(report, stage):
    report.part("Apache in the place of nginx, users known by Digest")
    if start_before_server(report, stage, "apache2", "apache/xcapd-by-digest.conf") is None:
        return
    digest = {"how": ["--digest"]}
    own_and_others(report, stage, **digest)
    continued(report, stage, **digest)


def crowd_at_nginx(report, stage):
    """What its clients get when more connect than xcapd's backlog has room for."""
    report.part("Many clients at once, at nginx")
    port = free_port()
    stage.serve_told(port)
    stage.start_proxy("nginx/xcapd-by-password.conf", [port], rate=10_000)
    for name in (f"user{n}" for n in range(20)):
        Client(stage, name).put(home(name), friends("bob"))
    counts = crowd.crowd(stage, port)
    what = f"{crowd.CLIENTS} clients at once, the server busy for {crowd.BUSY} s"
    report.note(f"{what}: {crowd.shown(counts)}")


def list_server(report, stage):
    report.part("A list server reads all users' documents")
    ports = [free_port(), free_port()]
    for it in ports:
        stage.serve_told(it)
    stage.start_proxy("nginx/xcapd-by-password.conf", ports)
    names = [f"user{n}" for n in range(6)]
    for name in names:
        Client(stage, name).put(home(name), friends("bob"))
        Client(stage, name).put(home(name, "rls-services"), SERVICE.replace("all", name),
                                media=SERVICES)
    reader = Client(stage, certificate="reader")
    read = {reader.get(home(name)).status for name in names}
    report.each("it reads each list, from whichever process", read, 200)
    feeds = {reader.get(f"/~feed/aggregate/1{home(name)}").status for name in names}
    report.holds("it asks for feeds", feeds <= {200, 410}, " or ".join(map(str, sorted(feeds))))
    flat = {reader.get(f"/~flat/{sip(it)}/index/{sip(it)}").status for it in names}
    report.each("it reads flat lists", flat, 200)
    other = {reader.get(home(name).replace(":", "%3A")).status for name in names}
    report.each("and by addresses in another spelling", other, 200)
    report.status("it writes", reader.put(home("user1"), friends()), 403)
    joe = Client(stage, certificate="joe")
    joe.port = stage.reader_port
    report.status("a user's certificate at its port", joe.get(home("user1")), 400)
    unknown = Client(stage, "joe@example.com").get("/rls-services/global/index")
    seen = f"{unknown.status}, {unknown.body.count('<service ')} services"
    what = "somebody whose name stands for no user reads the index of services"
    report.holds(what, unknown.status == 200 and "<service " in unknown.body, seen)


def bounded(report, stage):
    """limit_req, as the site has it."""
    report.part("What one user asks for is bounded")
    port = free_port()
    stage.serve_told(port)
    stage.start_proxy("nginx/xcapd-by-password.conf", [port], rate=1)
    joe = Client(stage, "joe")
    statuses = [joe.get(home("joe")).status for _ in range(140)]
    is_so = statuses[:100] == [404] * 100 and 429 in statuses
    seen = f"{statuses.count(429)} of {len(statuses)} by 429"
    report.holds("beyond 100 at once he is refused", is_so, seen)
    report.status("another user isn't", Client(stage, "ann").get(home("ann")), 404)
