"""Several processes, over which the users are spread."""
from deployment.asking import Client, friends, home, sip
from deployment.stage import USERS

SPREAD = [name for name in USERS if name.startswith("user")]
SERVICES = "application/rls-services+xml"
SERVICE = (
    '<rls-services xmlns="urn:ietf:params:xml:ns:rls-services"><service uri="sip:all@example.com">'
    "<resource-list>https://xcap.example.com/xcap/l</resource-list></service></rls-services>"
)


def keeper_of(stage, ports, name):
    """The processes in which a user has changed something."""
    told = f"/{sip(name)}/"
    return [port for port in ports if any(told in line for line in stage.audit(port))]


def spread(report, stage, ports):
    """Puts a list of each user, and returns the users of each process."""
    report.part("Users are spread over two processes")
    clients = {name: Client(stage, name) for name in SPREAD}
    put = {it.put(home(name), friends("bob")).status for name, it in clients.items()}
    report.each(f"each of {len(SPREAD)} users puts a list", put, 201)
    keepers = {name: keeper_of(stage, ports, name) for name in SPREAD}
    users = {port: [name for name in SPREAD if keepers[name] == [port]] for port in ports}
    apart = all(len(found) == 1 for found in keepers.values())
    both = all(len(it) > 1 for it in users.values())
    counts = " and ".join(str(len(it)) for it in users.values())
    report.holds("each list is in one of them, and both have some", apart and both, counts)
    read = {it.get(home(name)).status for name, it in clients.items()}
    report.each("each user reads his list", read, 200)
    other = {it.get(home(name).replace(":", "%3A")).status for name, it in clients.items()}
    report.each("and by his address in another spelling", other, 200)
    return users


def one_is_down(report, stage, ports, users, processes):
    report.part("One of them is down, and comes again")
    stage.end(processes[0])
    away = {Client(stage, name).put(home(name), friends()).status for name in users[ports[0]]}
    report.each("its users are told so, and their requests go nowhere else", away, 502)
    there = {Client(stage, name).get(home(name)).status for name in users[ports[1]]}
    report.each("the others' lists are there", there, 200)
    stage.serve_told(ports[0])
    gone = {Client(stage, name).get(home(name)).status for name in users[ports[0]]}
    report.each("when it has come again it holds nothing", gone, 404)
    put = {Client(stage, name).put(home(name), friends()).status for name in users[ports[0]]}
    report.each("and its users put their lists again", put, 201)


def each_alone(report, stage, ports, users):
    report.part("What holds for each process alone")
    of_first, of_second = users[ports[0]], users[ports[1]]

    def offers(name):
        return Client(stage, name).put(home(name, "rls-services"), SERVICE, media=SERVICES)

    report.status("a user offers a service", offers(of_first[0]), 201)
    taken = offers(of_first[1])
    report.status("another user of its process the same one", taken, 409, "<uniqueness-failure>")
    report.status("a user of the other process the same one", offers(of_second[0]), 201)
    index = Client(stage, of_second[1]).get("/rls-services/global/index")
    seen = index.body.count("sip:all@example.com")
    what = "the index of services has those of the reader's process"
    report.holds(what, seen == 1, f"{seen} of 2")


def several(report, stage, ports, processes):
    users = spread(report, stage, ports)
    if all(len(it) > 1 for it in users.values()):
        one_is_down(report, stage, ports, users, processes)
        each_alone(report, stage, ports, users)
