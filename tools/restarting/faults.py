"""Journals that break off, are damaged, or find no room."""
from restarting.documents import Documents, document_path, text_of
from restarting.server import Ended, Kept


def records(text):
    """The places where the records of a journal begin, and its end."""
    places = [0]
    while places[-1] < len(text):
        here = places[-1]
        places.append(here + 4 + int.from_bytes(text[here : here + 4], "big"))
    return places


def session(program, folder, random, count):
    """A journal with this many edits, and the documents after each."""
    old, new = folder / "empty", folder / "whole"
    old.write_bytes(b"")
    kept = Kept(program, old, new)
    states = [Documents()]
    for number in range(count):
        asked, after = states[-1].edit(random, number)
        assert kept.ask(*asked)[0] in (200, 201)
        states.append(after)
    kept.end()
    return new.read_bytes(), states


def start(program, folder, text, **options):
    old, new = folder / "old", folder / "new"
    old.write_bytes(text)
    return Kept(program, old, new, **options), new


def cut_everywhere(report, program, folder, random):
    text, states = session(program, folder, random, 30)
    places = records(text)
    right = 0
    for length in range(places[-2], places[-1] + 1):
        kept, new = start(program, folder, text[:length])
        whole = length == places[-1]
        held = states[-1 if whole else -2].is_held_by(kept)
        kept.end()
        right += held and new.read_bytes() == text[: places[-1 if whole else -2]]
    tried = places[-1] - places[-2] + 1
    report.holds(
        "a journal cut at each byte of its last record: the server stands at the record before, and"
        " the new journal has the whole records alone",
        right == tried,
        f"{right} of {tried}",
    )


def damaged(report, program, folder, random):
    text, _ = session(program, folder, random, 30)
    places = records(text)
    right = 0
    for number, place in enumerate(places[:-1]):
        broken = bytearray(text)
        broken[place + 4] = 3
        kept, new = start(program, folder, bytes(broken))
        status = kept.process.wait()
        right += (status, kept.told()) == (6, [f"journal: damaged {place}"])
        right += new.read_bytes() == text[:place]
    report.holds(
        "a method's byte damaged, in each record: status 6 and the place, and the new journal has"
        " the records before it",
        right == 2 * (len(places) - 1),
        f"{len(places) - 1} records",
    )
    ends = {"served": 0, "damaged": 0, "refused": 0}
    odd = 0
    for _ in range(300):
        broken = bytearray(text)
        broken[random.randrange(len(text))] ^= 1 << random.randrange(8)
        kept, new = start(program, folder, bytes(broken))
        try:
            kept.ask("GET", "resource-lists/users/user0/index", "user0")
            ends["served"] += 1
            kept.end()
        except Ended:
            told = kept.told()
            word = told[-1].split()[1] if told else ""
            odd += kept.process.wait() != 6 or word not in ends
            ends[word] = ends.get(word, 0) + 1
    report.holds(
        "one bit changed anywhere, 300 times: it serves, or ends with status 6 and says why",
        odd == 0,
        ", ".join(f"{count} {word}" for word, count in ends.items()),
    )


def is_without_room(kept, known, random):
    """Makes 200 edits. The documents then, how many were accepted, and whether all others were
    answered 500 and changed nothing."""
    statuses = []
    for number in range(100, 300):
        asked, after = known.edit(random, number)
        statuses.append(kept.ask(*asked)[0])
        if statuses[-1] in (200, 201):
            known = after
    first = statuses.index(500)
    return known, first, set(statuses[first:]) == {500} and known.is_held_by(kept)


def full_disk(report, program, folder, random):
    """A limit on the size of files takes the place of a full disk."""
    text, states = session(program, folder, random, 30)
    for limit in (len(text) + 7, len(text) + 2_000, len(text) + 20_001):
        kept, new = start(program, folder, text, limit=limit)
        known, accepted, all_refused = is_without_room(kept, states[-1], random)
        report.holds(
            f"no room after {limit} bytes: from the first record that doesn't fit on, each edit is"
            " answered 500 and changes nothing, and all is still read",
            all_refused,
            f"{accepted} accepted, then {200 - accepted} answered 500",
        )
        kept.make_room()
        status = kept.ask(*known.edit(random, 300)[0])[0]
        is_so = status == 500 and known.is_held_by(kept)
        report.holds("  and so is one when there is room again", is_so)
        kept.end()
        again, _ = start(program, folder, new.read_bytes())
        held = known.is_held_by(again)
        report.holds("  and a restart from what was written has all that was accepted", held)
        again.end()
    kept, _ = start(program, folder, text, limit=len(text) - 1)
    ended = (kept.process.wait(), kept.told())
    report.holds("no room for the old journal's records: status 4", ended == (4, ["output failed"]))


def ends(report, program, folder, random):
    """How it ends after its last connection."""
    text, states = session(program, folder, random, 3)
    put = ("PUT", document_path("ann"), "ann", text_of(["sip:a@x"]), "resource-lists")
    for limit, answer, ended in ((None, 201, (0, [])), (len(text), 500, (4, ["output failed"]))):
        kept, _ = start(program, folder, text, limit=limit, connections=1)
        is_so = kept.ask(*put)[0] == answer
        kept.close()
        is_so &= (kept.process.wait(), kept.told()) == ended
        what = f"it ends after its last connection, on which a {answer} was answered: status"
        report.holds(what, is_so, str(ended[0]))
