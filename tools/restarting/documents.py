"""Contact lists, as a client knows them by the replies that it got, and random edits of them."""
import xml.etree.ElementTree as xml

LISTS = "urn:ietf:params:xml:ns:resource-lists"


def text_of(uris):
    entries = "".join(f'<entry uri="{it}"/>' for it in uris)
    return f'<resource-lists xmlns="{LISTS}"><list name="friends">{entries}</list></resource-lists>'


def uris_in(text):
    return [it.get("uri") for it in xml.fromstring(text).iter(f"{{{LISTS}}}entry")]


def document_path(user):
    return f"resource-lists/users/{user}/index"


def entry_path(user, uri):
    return f"{document_path(user)}/~~/resource-lists/list/entry%5B@uri=%22{uri}%22%5D"


class Documents:
    """The documents by user, each with its tag and its addresses in order; and the last number."""

    def __init__(self):
        self.held = {}
        self.last = 0

    def copy(self):
        made = Documents()
        made.held = {user: (tag, list(uris)) for user, (tag, uris) in self.held.items()}
        made.last = self.last
        return made

    def edit(self, random, number):
        """A random edit: what is asked, and the documents where it is accepted."""
        user = f"user{random.randrange(20)}"
        after = self.copy()
        after.last += 1
        tag, uris = after.held.get(user, (None, None))
        if uris is None or random.random() < 0.05:
            uris = [f"sip:{number}.{n}@example.com" for n in range(random.randrange(1, 8))]
            after.held[user] = (after.last, uris)
            return ("PUT", document_path(user), user, text_of(uris), "resource-lists"), after
        if random.random() < 0.02:
            del after.held[user]
            return ("DELETE", document_path(user), user), after
        if len(uris) > 2 and random.random() < 0.45:
            uri = random.choice(uris)
            uris.remove(uri)
            after.held[user] = (after.last, uris)
            return ("DELETE", entry_path(user, uri), user), after
        uri = f"sip:{number}@example.com"
        uris.append(uri)
        after.held[user] = (after.last, uris)
        return ("PUT", entry_path(user, uri), user, f'<entry uri="{uri}"/>', "xcap-el"), after

    def is_held_by(self, kept):
        """Whether the server holds exactly this, with these tags."""
        for user in (f"user{n}" for n in range(20)):
            status, tag, text = kept.ask("GET", document_path(user), user)
            if user not in self.held:
                if status != 404:
                    return False
            elif status != 200 or (int(tag), uris_in(text)) != self.held[user]:
                return False
        return True
