"""Harm that isn't done: which values may be set, and all of them set again as they were.

Without --loud no volume goes above what it was, nothing is unmuted, no other source is chosen and no effect is switched."""
from told import SILENCE

CLOCKS = ("clock_source", "clock_selector", "clock_multiplier")
LOUD = "needs --loud"


class Keeper:
    """What each control was when it was first read, what it may be set to, and what was left out with why."""

    def __init__(self, is_loud, is_read_only):
        self.is_loud, self.is_read_only = is_loud, is_read_only
        self.first, self.now, self.points, self.left_out, self.not_restored = {}, {}, {}, [], []

    def leave_out(self, what, why):
        if (what, why) not in self.left_out:
            self.left_out.append((what, why))

    def hear(self, point, data):
        """A value that was read whole."""
        if point.is_whole(data):
            self.first.setdefault(point.key, data)
            self.points[point.key] = point
            self.now[point.key] = data

    def was_set(self, point):
        """A SET was asked: the value isn't known until it is read."""
        if point.key in self.first:
            self.now[point.key] = None

    def why_not(self, point, data):
        """Why a control isn't set to this value; None where it may be."""
        first = self.first.get(point.key)
        if self.is_read_only:
            return "--read-only"
        if first is None:
            return "its value couldn't be read, so it couldn't be set again"
        if point.key in {key for key, _ in self.not_restored}:
            return "it couldn't be set again as it was before"
        if self.is_loud or data == first:
            return None
        return self.why_loud(point, data, first)

    def why_loud(self, point, data, first):
        """Why a value may be heard, which nobody asked for."""
        value, was = point.control.value_of(data), point.control.value_of(first)
        if point.name in ("volume", "node"):
            return f"it is above what it was: {LOUD}" if value != SILENCE and value > was or is_cut_louder(data, was) else None
        if point.name == "mute":
            return f"it may unmute: {LOUD}" if value != 1 and was != 0 else None
        if point.block is not None and point.block.kind in CLOCKS:
            return None
        return f"it may change what is heard: {LOUD}"

    def changed(self):
        """The controls that aren't as they were, the last first."""
        return [self.points[key] for key in reversed(self.now) if self.now[key] != self.first[key]]


def is_cut_louder(data, was):
    """Whether a volume of one byte, taken for the low one of two, is above what it was."""
    return len(data) == 1 and data[0] > was


def harmless_value(point):
    """What a control that shouldn't take any value is tried with: nothing that can be heard."""
    quiet = {"mute": 1, "volume": SILENCE, "node": SILENCE, "frequency": 48000}
    return quiet.get(point.name, 1).to_bytes(point.width, "little", signed=point.control.signed)
