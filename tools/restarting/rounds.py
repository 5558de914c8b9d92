"""Edits in rounds, each of which ends with the process killed at a random moment."""
import threading
import time

from restarting.documents import Documents
from restarting.loop import Looped
from restarting.server import Ended

class Rounds:
    """What was acknowledged, and what may or may not have been done when the process was killed."""

    def __init__(self, report, program, folder, random):
        self.report = report
        self.program = program
        self.folder = folder
        self.random = random
        self.known = Documents()
        self.perhaps = None
        self.tried = 0
        self.odd = []
        self.edits = 0
        self.done_unheard = 0
        self.kills_in_restarts = 0

    def start(self):
        return Looped(self.program, self.folder)

    def restart(self):
        """Starts it from its journal; now and then it is killed in reading that, or soon after."""
        while self.random.random() < 0.5:
            kept = self.start()
            time.sleep(self.random.random() * 0.1)
            kept.kill()
            self.kills_in_restarts += 1
        kept = self.start()
        kept.connect()
        return kept

    def compare(self, kept):
        """All that was acknowledged is held, and of what wasn't nothing but the last request."""
        held = self.known.is_held_by(kept)
        if not held and self.perhaps is not None:
            held = self.perhaps.is_held_by(kept)
            if held:
                self.known = self.perhaps
                self.done_unheard += 1
        self.perhaps = None
        return held

    def edit(self, kept):
        asked, after = self.known.edit(self.random, self.tried)
        self.tried += 1
        self.perhaps = after
        status, tag, _ = kept.ask(*asked)
        if status not in (200, 201) or (tag and int(tag) != after.last):
            self.odd.append(f"{asked[0]} {asked[1]}: {status} {tag}")
        self.known, self.perhaps = after, None
        self.edits += 1

    def edit_until_killed(self, kept):
        threading.Timer(0.02 + self.random.random() * 0.4, kept.strike).start()
        try:
            while True:
                self.edit(kept)
        except Ended:
            kept.process.wait()
            kept.close()

    def run(self, count):
        for number in range(count + 1):
            kept = self.restart()
            is_right = self.compare(kept) and not self.odd
            if number == count or not is_right:
                break
            self.edit_until_killed(kept)
        kept.end()
        seen = (
            f"{self.edits} edits acknowledged, {self.done_unheard} done without a reply,"
            f" {self.kills_in_restarts} more kills in and after restarts, a journal of"
            f" {(self.folder / 'journal.new').stat().st_size} bytes"
        )
        self.report.holds(
            f"{count} rounds of edits, each killed at a random moment: every document and tag that"
            " was acknowledged is held after the restart, and of the others at most the last one",
            is_right,
            seen if is_right else ", ".join([f"round {number}", *self.odd[:3]]),
        )
