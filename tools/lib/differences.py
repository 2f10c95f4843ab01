"""What a tool found wrong in a script: each difference once, with its count, as text and as plain data for --json.

A difference says in which line of the script it stands, what was asked, what was said and what was wanted, why, and by which document."""
import re

STANDARD, CONTRADICTS, PROFILE, LIMIT, WARNING = "standard", "contradicts itself", "profile", "limit", "warning"
HEADINGS = {STANDARD: "Wrong by the standard", CONTRADICTS: "Contradicts itself", PROFILE: "Other than this project's profile",
            LIMIT: "What the program can't hold: judged by this tool alone", WARNING: "Warnings"}
# The places that a text names; of more the number is told. And the bytes that it shows.
NAMED = 4
MOST_BYTES = 24


class Difference:
    """One difference. `field` is what was asked, or which stream it is; `value` is what was said, `wanted` what should have been;
    `length` counts the lines of the script that it speaks of, from its place on. `key` makes two of them the same."""

    def __init__(self, kind, rule, place, field, value, wanted, text, said="", party="device", length=2, key=None):
        self.kind, self.rule, self.places, self.length = kind, rule, [place], length
        self.field, self.value, self.wanted, self.text, self.said, self.party = field, value, wanted, text, said, party
        self.key = (kind, rule, party, field if key is None else key)

    def as_data(self):
        return {"rule": self.rule, "kind": self.kind, "place": self.places[0], "length": self.length, "field": self.field,
                "value": self.value, "wanted": self.wanted, "text": self.text, "said": self.said, "party": self.party,
                "count": len(self.places), "places": self.places}

    def lines(self):
        """The difference as text."""
        count = len(self.places)
        if self.kind == LIMIT:
            yield f"line {self.places[0]}: {self.field}: {self.text}" + (f"; {count} times" if count > 1 else "")
            return
        yield f"line {self.places[0]}: {self.field}"
        yield f"  the {self.party} {'sent' if self.rule.startswith('stream') else 'said'}: {shortened(self.value)}"
        yield f"  {'in the profile' if self.kind == PROFILE else 'wanted'}: {shortened(self.wanted)}"
        yield f"  {self.text}{f' ({self.said})' if self.said else ''}."
        if count > 1:
            yield f"  {count} times: {lines_named(self.places)}."


def shortened(text):
    """A text without the most of long bytes."""
    return re.sub(f"[0-9a-f]{{{2 * MOST_BYTES + 1},}}", lambda found: f"{found[0][:2 * MOST_BYTES]}..", text)


def counted(count, what):
    """A number of things, as '1 transfer', '2 transfers'."""
    return f"{count} {what}{'' if count == 1 else 's'}"


def lines_named(places):
    """Lines of a script in words."""
    named = [str(place) for place in places[:NAMED]]
    more = len(places) - len(named)
    last = f"{more} more" if more else named.pop()
    return f"lines {', '.join(named)} and {last}"


class Differences:
    """All that was found, in the order in which each was first seen."""

    def __init__(self):
        self.found = {}

    def add(self, difference):
        known = self.found.setdefault(difference.key, difference)
        if known is not difference:
            known.places += difference.places

    def of(self, *kinds):
        return [one for one in self.found.values() if one.kind in kinds]

    def lines(self, kinds):
        """The differences of these kinds, each kind under its heading."""
        for kind in kinds:
            if self.of(kind):
                yield HEADINGS[kind]
                for one in self.of(kind):
                    yield from one.lines()
                yield ""
