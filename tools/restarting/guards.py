"""Where something is amiss, deploy/keep-journal loses nothing, and says why it stops."""
import os
import signal

from restarting.documents import Documents, document_path, text_of
from restarting.loop import (
    STOPPED,
    Looped,
    damaged_place,
    kept_edits,
    mend,
    path_without,
    two_journals,
    wait_for,
)
from restarting.mounts import mount, unmount
from restarting.server import Ended

PAGE = 4096
NOTHING = "journal.new cannot be written to the disk"
STOPS = (
    ("without cmp", "cmp", {}, "there is no cmp on the path"),
    ("where cmp fails", None, {"cmp": "exit 2"}, "journal and journal.new cannot be compared"),
    ("where stat fails", None, {"stat": "exit 1"}, "the size of journal.new cannot be read"),
    ("where stat says nothing", None, {"stat": ""}, "the size of journal.new was given as ''"),
    ("where the disk fails", None, {"sync": "exit 1"}, NOTHING),
)


def files(folder):
    """The bytes of the journals of a folder."""
    return {it.name: it.read_bytes() for it in folder.iterdir() if it.name != "journal.lock"}


def holds(program, folder, known):
    """Whether a start holds these documents, and then ends it."""
    kept = Looped(program, folder)
    try:
        return known.is_held_by(kept)
    except Ended:
        return False
    finally:
        kept.end()


def stops(report, program, folder, random):
    """It changes no file where it can't tell which is to be read."""
    place = folder / "stops"
    _, two, *_ = two_journals(program, place, random)
    before = files(place)
    for number, (what, lacking, broken, why) in enumerate(STOPS):
        path = path_without(folder / f"path{number}", lacking, **broken)
        kept = Looped(program, place, path)
        status = kept.process.wait(60)
        is_so = status == STOPPED and files(place) == before and kept.said()[-1].endswith(why)
        report.holds(f"{what} it stops, and no file is changed", is_so, kept.said()[-1])
    report.holds("  and started as usual it has all that was accepted", holds(program, place, two))


def page_of_zeros(report, program, folder, random):
    """A power failure may leave zeros where a copy of the old journal wasn't written yet."""
    place = folder / "zeros"
    one, _, old, new = two_journals(program, place, random)
    assert len(old) > 2 * PAGE
    (place / "journal.new").write_bytes(new[:PAGE] + bytes(PAGE) + new[2 * PAGE :])
    seen = []
    for _ in range(3):
        kept = Looped(program, place)
        at = damaged_place(kept)
        seen.append((at is not None, (place / "journal.1").read_bytes() == old))
    report.holds(
        "a page of zeros in the copied part of journal.new: status 6 at each start, and the good"
        " journal stays as journal.1",
        seen == [(True, True)] * 3,
        kept.said()[-1],
    )
    mend(place, at)
    is_so = holds(program, place, one)
    report.holds("  mended as docs/OPERATIONS.md says it has all that journal had", is_so)


def zeros_in_new_journal(report, program, folder, random):
    """Zeros among the records that are new in journal.new."""
    place = folder / "zeros"
    one, two, old, new = two_journals(program, place, random)
    (place / "journal.new").write_bytes(new[:-700] + bytes(700))
    kept = Looped(program, place)
    at = damaged_place(kept)
    mend(place, at)
    kept = Looped(program, place)
    _, tag, _ = kept.ask("PUT", document_path("user99"), "user99", text_of([]), "resource-lists")
    kept.end()
    is_so = at > len(old) and one.last < int(tag) - 1 < two.last
    seen = f"{int(tag) - 1 - one.last} of {two.last - one.last} changes of the second run"
    report.holds("zeros in its end: mended so it has what stood before them", is_so, seen)


def restarts(report, program, folder, random):
    """Starts in a row, each from what the one before wrote, which broke off or not."""
    place, known = folder / "restarts", Documents()
    place.mkdir()
    for count in (21, 3, 0, 5, 0):
        known = kept_edits(program, place, random, known, count)
    left = sorted(it.name for it in place.iterdir())
    is_so = left == ["journal", "journal.lock", "journal.new"] and holds(program, place, known)
    report.holds("five starts in a row: all is held, and no earlier file is left", is_so)
    states = [known]
    kept = Looped(program, place)
    for _ in range(2):
        asked, after = states[-1].edit(random, states[-1].last + 1)
        kept.ask(*asked)
        states.append(after)
    kept.end()
    text = (place / "journal.new").read_bytes()
    (place / "journal.new").write_bytes(text[:-7])
    is_so = holds(program, place, states[-2]) and holds(program, place, states[-2])
    report.holds("journal.new breaks off in its last record: all before that is held", is_so)


def again_and_again(report, program, folder, random):
    """Without --once it starts the program again, until it is ended itself."""
    place, known, runs = folder / "again", Documents(), 0
    place.mkdir()
    kept = Looped(program, place, connections=1, once=False)
    for _ in range(3):
        asked, after = known.edit(random, known.last + 1)
        assert kept.ask(*asked)[0] in (200, 201)
        known = after
        kept.close()
        runs += 1
        wait_for(lambda: kept.said().count("the command has ended with status 0") == runs)
    status, _ = kept.end()
    is_so = status == -signal.SIGTERM and holds(program, place, known)
    report.holds(f"it ends {runs} times after its last connection, and starts anew", is_so)


def second(report, program, folder, random):
    """Two of it in a folder, and a folder without the file to be read."""
    place = folder / "second"
    place.mkdir()
    first = Looped(program, place)
    asked, known = Documents().edit(random, 1)
    first.ask(*asked)
    other = Looped(program, place)
    status = other.process.wait(60)
    is_so = status == STOPPED and known.is_held_by(first)
    report.holds("a second one in a folder stops, and the first goes on", is_so, other.said()[-1])
    first.end()
    (place / "journal").rename(place / "journal.1")
    before = files(place)
    kept = Looped(program, place)
    is_so = kept.process.wait(60) == STOPPED and files(place) == before
    report.holds("without a file journal, but others beside, it stops", is_so, kept.said()[-1])


def fill(kept, known, random):
    """Makes edits until one is answered 500. The documents then."""
    while True:
        asked, after = known.edit(random, known.last + 1)
        if kept.ask(*asked)[0] == 500:
            return known
        known = after


def full(report, program, folder, random):
    """A disk that is full, in the middle of edits and at a start."""
    place = folder / "full"
    place.mkdir()
    if os.geteuid() or not mount("-t", "tmpfs", "-o", "size=160k", "tmpfs", place):
        report.note("a disk that is full: not tried, as nothing can be mounted here")
        return
    try:
        kept = Looped(program, place)
        known = fill(kept, Documents(), random)
        report.holds("a full disk: an edit is answered 500", known.is_held_by(kept))
        kept.end()
        kept = Looped(program, place)
        status = kept.process.wait(60)
        seen = f"status {status}, {', '.join(kept.told())}"
        report.holds("  a start without room for the new journal ends with 4", status == 4, seen)
        mount("-o", "remount,size=4m", place)
        is_so = holds(program, place, known) and holds(program, place, known)
        report.holds("  and with room again all that was accepted is held", is_so)
    finally:
        unmount(place)


def guards(report, program, folder, random):
    parts = restarts, again_and_again, stops, page_of_zeros, zeros_in_new_journal, second, full
    for part in parts:
        part(report, program, folder, random)
