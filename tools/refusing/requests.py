"""The requests of the conversations in which memory is refused."""
ROOT = "http://xcap.example.com/xcap"
JOE = "sip:joe@example.com"
INDEX = f"resource-lists/users/{JOE}/index"
TEAM = f"resource-lists/users/{JOE}/team"
SERVICES = f"rls-services/users/{JOE}/index"
FRIENDS = f"{INDEX}/~~/resource-lists/list"

LISTS = (
    '<resource-lists xmlns="urn:ietf:params:xml:ns:resource-lists"><list name="friends">'
    '<display-name>F</display-name><entry uri="sip:a@x"/></list></resource-lists>'
)
SERVICE = (
    '<rls-services xmlns="urn:ietf:params:xml:ns:rls-services"><service uri="sip:all@x">'
    f"<resource-list>{ROOT}/{FRIENDS}</resource-list>"
    "<packages><package>presence</package></packages></service></rls-services>"
)


def asking(method, path, body=None, media=None):
    """The bytes of a request."""
    head = f"{method} /xcap/{path} HTTP/1.1\r\nHost: xcap.example.com\r\nX-XCAP-User: {JOE}\r\n"
    if body is not None:
        head += f"Content-Type: application/{media}+xml\r\nContent-Length: {len(body)}\r\n"
    return f"{head}\r\n{body or ''}".encode()


def entry_path(uri):
    return f"{FRIENDS}/entry%5B@uri=%22{uri}%22%5D"


def put_entry(uri):
    return asking("PUT", entry_path(uri), f'<entry uri="{uri}"/>', "xcap-el")


def feed(mode, tag):
    return asking("GET", f"~feed/{mode}/{tag}/{INDEX}")


PUT_LISTS = asking("PUT", INDEX, LISTS, "resource-lists")

# What was asked of a server whose journal is read.
BEFORE = [PUT_LISTS, put_entry("sip:b@x"), asking("PUT", TEAM, LISTS, "resource-lists")]

CONVERSATION = [
    PUT_LISTS,
    put_entry("sip:b@x"),
    put_entry("sip:c@x"),
    asking("PUT", f"{FRIENDS}/@xml:lang", "en", "xcap-att"),
    asking("GET", INDEX),
    asking("GET", entry_path("sip:b@x")),
    asking("DELETE", entry_path("sip:b@x")),
    asking("PUT", SERVICES, SERVICE, "rls-services"),
    asking("GET", f"~flat/{JOE}/index/sip:all@x"),
    feed("aggregate", 1),
    feed("xcap-patching", 1),
    asking("GET", f"~feed/element/1/{entry_path('sip:c@x')}"),
    asking("PUT", TEAM, LISTS, "resource-lists"),
    asking("DELETE", TEAM),
    asking("PUT", INDEX, "<", "resource-lists"),
    asking("GET", INDEX),
]

# What shows, of a server after such a conversation, all that was accepted.
SHOWING = [
    asking("GET", INDEX),
    asking("GET", TEAM),
    asking("GET", SERVICES),
    asking("GET", "rls-services/global/index"),
    feed("aggregate", 4),
]

# A document of some 60,000 bytes, and what a GET shows of it without memory for its text.
LONG = f"resource-lists/users/{JOE}/long"
LONG_ENTRIES = "".join(f'<entry uri="sip:{n:04}@long.example.com"/>' for n in range(1_500))
LONG_LISTS = LISTS.replace("</list>", f"{LONG_ENTRIES}</list>")
LONG_FRIENDS = f"{LONG}/~~/resource-lists/list"
LONG_FRIENDS = f"{LONG}/~~/resource-lists/list"
TO_LEND = [
    PUT_LISTS,
    asking("PUT", LONG, LONG_LISTS, "resource-lists"),
    asking("PUT", f"{LONG_FRIENDS}/@xml:lang", "en", "xcap-att"),
]
LENT = [asking("GET", it) for it in (INDEX, LONG, FRIENDS, LONG_FRIENDS)]
