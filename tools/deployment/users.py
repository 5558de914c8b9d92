"""Who is known to the proxy, and what they may read and write."""
from deployment.asking import Client, ELEMENT, entry, friends, home, sip

FORGED = f"X-XCAP-User: {sip('joe')}"
FEED = f"/~feed/aggregate/1{home('joe')}"


def own_home(report, stage):
    report.part("A user who is known by a password reads and writes his own home")
    joe = Client(stage, "joe")
    tag = 'ETag: "1"'
    report.status("he puts a list", joe.put(home("joe"), friends("bob")), 201, tag)
    report.status("he reads it", joe.get(home("joe")), 200, tag)
    report.status("he reads one entry", joe.get(entry("joe", "bob")), 200, '<entry uri="sip:bob')
    added = f'<entry uri="{sip("eve")}"/>'
    report.status("he puts an entry", joe.put(entry("joe", "eve"), added, media=ELEMENT), 201)
    again = joe.put(home("joe"), friends("bob"), 'If-Match: "1"')
    report.status("he puts the list over a version that isn't the present one", again, 412)
    report.status("he asks for what he has", joe.get(home("joe"), 'If-None-Match: "2"'), 304)
    twice = joe.put(home("joe"), friends("bob", "bob"))
    report.status("he puts a list with an entry twice", twice, 409, "<uniqueness-failure>")
    report.status("he asks for the changes since version 1", joe.get(FEED), 200, 'new-etag="2"')
    report.status("he deletes the entry", joe.delete(entry("joe", "eve")), 200)
    report.status("he reads it again", joe.get(entry("joe", "eve")), 404)


def other_homes(report, stage):
    report.part("and no other's")
    ann = Client(stage, "ann")
    report.status("another user reads his list", ann.get(home("joe")), 403)
    report.status("another user writes it", ann.put(home("joe"), friends()), 403)
    report.status("another user asks for its changes", ann.get(FEED), 403)
    report.status("all read the capabilities", ann.get("/xcap-caps/global/index"), 200)
    report.status("nobody is asked for a password", Client(stage).get(home("joe")), 401)
    wrong = Client(stage, "joe", password="another password").get(home("joe"))
    report.status("with a wrong password", wrong, 401)


def forged_names(report, stage):
    report.part("A name that the client asserts itself is overwritten")
    ann = Client(stage, "ann")
    report.status("ann says that she is joe, and reads his list", ann.get(home("joe"), FORGED), 403)
    report.status("she writes it", ann.put(home("joe"), friends(), FORGED), 403)
    report.status("she says so twice", ann.get(home("joe"), FORGED, FORGED), 403)
    own = ann.put(home("ann"), friends(), FORGED)
    report.status("she says so, and writes her own list", own, 201)
    report.status("she sends an empty name", ann.get(home("joe"), "X-XCAP-User;"), 403)
    other = Client(stage, "joe@example.com").get(home("joe"), FORGED)
    report.status("somebody whose name stands for no user says that he is joe", other, 403)
    report.status("nobody says that he is joe", Client(stage).get(home("joe"), FORGED), 401)


def certificates(report, stage):
    report.part("Users who are known by certificates")
    joe = Client(stage, certificate="joe")
    report.status("joe puts a list", joe.put(home("joe"), friends("bob")), 201)
    report.status("he reads ann's", joe.get(home("ann")), 403)
    report.status("he says that he is ann", joe.get(home("ann"), f"X-XCAP-User: {sip('ann')}"), 403)
    without = Client(stage).get(home("joe"), FORGED)
    report.status("without a certificate, and a forged name", without, 400)
    stranger = Client(stage, certificate="stranger").get(home("joe"), FORGED)
    report.status("a certificate of another authority", stranger, 400)
    longer = Client(stage, certificate="longer").get(home("joe"), FORGED)
    report.status("a longer subject that ends in the name of joe", longer, 403)
