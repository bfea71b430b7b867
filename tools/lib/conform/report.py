"""What a run comes to, a line a script, in TAP (Test Anything Protocol)."""
import itertools
import sys

from conform.rules import PROFILE, STANDARD

SHOWN = 3  # differences of one script by one rule


def alike(differences):
    """The differences of each rule."""
    kinds = {}
    for it in differences:
        kinds.setdefault((it.rule.name, it.whose), []).append(it)
    return kinds.values()


class Tap:
    """`about` is a line on what is tested, and `what` the word for what is played."""

    def __init__(self, chosen, about, judges_profile, what="scripts", out=sys.stdout):
        self.chosen, self.judges_profile, self.what, self.out = chosen, judges_profile, what, out
        self.results = []
        self.failed = False
        self.progress()
        self.say("TAP version 13")
        self.say(f"1..{len(chosen)}")
        self.say(f"# {about}")

    def say(self, line):
        if sys.stderr.isatty():
            print("\r\x1b[K", end="", file=sys.stderr, flush=True)
        print(line, file=self.out, flush=True)

    def progress(self):
        """On a terminal, a line of what is played now."""
        at = len(self.results)
        if sys.stderr.isatty() and at < len(self.chosen):
            print(f"\r\x1b[K{at + 1} of {len(self.chosen)}: {self.chosen[at].name}", end="", file=sys.stderr, flush=True)

    def unopened(self):
        """How many scripts, up to the last, couldn't open a WebSocket."""
        last = itertools.takewhile(lambda it: any(one.rule.name == "open" for one in it.differences), reversed(self.results))
        return sum(1 for _ in last)

    def add(self, result):
        self.results.append(result)
        self.tell(result)
        self.progress()

    def tell(self, result):
        number, name = len(self.results), result.script.name
        if result.skipped:
            self.say(f"ok {number} - {name} # SKIP {result.skipped}")
            return
        whose = {it.whose for it in result.differences}
        fails = STANDARD in whose or self.judges_profile and PROFILE in whose
        self.failed = self.failed or fails
        if not whose:
            self.say(f"ok {number} - {name}")
        elif fails:
            self.say(f"not ok {number} - {name}")
        else:
            self.say(f"not ok {number} - {name} # TODO differs from the profile alone")
        for same in alike(result.differences):
            for it in same[:SHOWN]:
                self.say(f"# {it.whose} {it.clause or '-'} {it.rule.name}: {it.name}: {it.words}")
            if same[SHOWN:]:
                self.say(f"# {same[0].whose} {same[0].clause or '-'} {same[0].rule.name}: {len(same) - SHOWN} more")

    def end(self):
        differences = [it for result in self.results for it in result.differences]
        counts = {whose: sum(it.whose == whose for it in differences) for whose in (STANDARD, PROFILE)}
        skipped = sum(bool(it.skipped) for it in self.results)
        strangers = sum(it.strangers for it in self.results)
        if strangers:
            self.say(f"# {strangers} messages of other nodes came, and were passed over")
        self.say(f"# {len(self.results)} {self.what}, {skipped} skipped: {counts[STANDARD]} differences of the standard, "
                 f"{counts[PROFILE]} of the profile")
