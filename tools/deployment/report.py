"""What was tried, and what came of it."""
import textwrap


class Report:
    """Prints a line for each thing tried, and counts those that came otherwise than they should."""

    def __init__(self):
        self.wrong = 0
        self.tried = 0

    def say(self, text):
        print(text, flush=True)

    def part(self, title):
        self.say(f"\n{title}")

    def note(self, text):
        """Reports a measurement, which nothing is checked against."""
        self._print("note", text)

    def holds(self, what, does_hold, seen=""):
        self.tried += 1
        self.wrong += not does_hold
        self._print("ok" if does_hold else "WRONG", what + (f": {seen}" if seen else ""))

    def status(self, what, answer, wanted, more=""):
        """An answer has this status, and this in its head or body."""
        text = f"{answer.head}\n{answer.body}"
        seen = f"{answer.status}" + (f", {more}" if more and more in text else "")
        self.holds(what, answer.status == wanted and more in text, seen)

    def each(self, what, statuses, wanted):
        """All answers of several requests have this status."""
        self.holds(what, statuses == {wanted}, "each " + " or ".join(map(str, sorted(statuses))))

    def _print(self, word, text):
        lines = textwrap.wrap(text, 106, break_long_words=False, break_on_hyphens=False)
        self.say("\n".join([f"  {word:5} {lines[0]}", *(f"        {it}" for it in lines[1:])]))
