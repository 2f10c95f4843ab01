"""What became of a control transfer, by whatever way a device was asked."""
from usbip import DONE, ENDED, STALLED, TOO_MUCH

# The states of transfers to a device that is gone, or that said nothing in the time that a server gave it, as Linux numbers them.
NO_DEVICE, TIMED_OUT = -19, -110


class Gone(Exception):
    """The device went away, or the way to it: why, as a sentence."""


class Untaken(Exception):
    """Packets that the host's own system doesn't take: why, as a sentence."""


class Outcome:
    """What a device said. `kind` is bytes, done, stall, silent (nothing in time), overflow, broken, or unsent (the host's own system
    didn't send it). `data` is what came, `passed` how many bytes of data went over (None where nothing tells)."""

    def __init__(self, kind, data=b"", passed=None, status=0, seconds=0):
        self.kind, self.data, self.passed, self.status, self.seconds = kind, data, passed, status, seconds

    @property
    def is_answer(self):
        return self.kind in ("bytes", "done", "stall", "overflow")

    def said(self):
        """What was said, as a script keeps it."""
        if self.kind == "bytes":
            return f"bytes {self.data.hex() or '-'}"
        if self.kind in ("done", "stall"):
            return self.kind
        if self.kind == "overflow":
            return "more than was asked for"
        if self.kind == "silent":
            return f"nothing within {self.seconds} second{'' if self.seconds == 1 else 's'}"
        return f"nothing, and the transfer ended with {self.status}"

    def stage(self, is_in, length):
        """Where a stall of a request with so many bytes came: 'setup', before any went over; 'data', after some did; 'status', after the
        last of a SET; None where nothing tells."""
        if self.kind != "stall" or self.passed is None or not length:
            return None
        if not self.passed:
            return "setup"
        return "status" if not is_in and self.passed >= length else "data"


def outcome_of(status, is_in, data, passed, seconds):
    """The outcome of a transfer that ended with one of Linux's states."""
    if status in (NO_DEVICE, ENDED):
        raise Gone("the device went away")
    if status == DONE:
        return Outcome("bytes", data, passed) if is_in else Outcome("done", b"", passed)
    kind = {STALLED: "stall", TOO_MUCH: "overflow", TIMED_OUT: "silent"}.get(status, "broken")
    return Outcome(kind, b"", passed, status, seconds)
