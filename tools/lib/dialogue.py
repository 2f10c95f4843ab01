"""What was asked of a device and what it said: a script of the program with the answers as comments, as tools/script_of makes one."""
from program import lines_of_descriptor
from request import Request

# A request that every device answers, at any time: the front of its configuration. So one sees whether it still answers.
STILL_THERE = bytes.fromhex("8006000200000900")
# How often it is asked before the device is taken for one that hangs.
TIMES = 2
# What isn't a request that is judged stands in a comment.
OTHER = "not of the audio function"


class Hangs(Exception):
    """The device answers nothing any more: since which request, as a sentence."""


class Asked:
    """A request that was asked: its line, what it speaks of, its words, what was said, and whether the rules of requests judge it."""

    def __init__(self, line, group, words, setup, sent, outcome, is_judged):
        self.line, self.group, self.words, self.setup, self.sent, self.outcome = line, group, words, setup, sent, outcome
        self.stage, self.program = outcome.stage(bool(setup[0] & 0x80), int.from_bytes(setup[6:8], "little")), None
        self.is_judged = is_judged

    def as_data(self):
        return {"line": self.line, "of": self.group, "asked": self.words, "setup": self.setup.hex(), "sent": self.sent.hex(),
                "said": self.outcome.said(), "stall_at": self.stage, "program": self.program}


class Dialogue:
    """The lines of the script so far, and the requests of it. `way` asks the device."""

    def __init__(self, way, configuration, blocks, head):
        self.way, self.blocks, self.asked, self.lines = way, blocks, [], [f"# {line}" for line in head]
        self.lines += lines_of_descriptor(configuration).splitlines() + ["g"]

    def comment(self, text):
        self.lines.append(f"# {text}")

    def messages(self):
        """Interrupt messages that came meanwhile."""
        while self.way.messages:
            self.lines.append(f"# message {self.way.messages.pop(0).hex()}")

    def record(self, group, setup, sent, outcome, is_other=False):
        """Keeps a request with what was said of it."""
        self.messages()
        words, is_judged = OTHER if is_other else Request(setup, sent, self.blocks).in_words(), not is_other and outcome.kind != "unsent"
        if is_other:
            self.comment(f"{setup.hex()}: {OTHER}; said {outcome.said()}")
        elif outcome.kind == "unsent":
            self.comment(f"{setup.hex()}: the kernel of this machine doesn't send it")
        else:
            self.lines.append(f"c {setup.hex()}" + (f" {sent.hex()}" if sent else ""))
            self.lines.append(f"# said {outcome.said()}")
        self.asked.append(Asked(len(self.lines) - is_judged, group, words, setup, sent, outcome, is_judged))
        return outcome

    def ask(self, group, setup, sent=b"", is_bad=False):
        """Asks, keeps what was said, and after a bad request, a stall or a silence sees whether the device still answers."""
        if setup[:2] == b"\x01\x0b":
            outcome = self.record(group, setup, sent, self.way.set_interface(setup[4], setup[2]))
        else:
            outcome = self.record(group, setup, sent, self.way.control(setup, sent))
        if is_bad and outcome.kind != "unsent" or outcome.kind in ("stall", "silent"):
            self.see_whether_there(outcome.kind == "silent")
        return outcome

    def see_whether_there(self, was_silent):
        """Asks for what every device answers; it hangs where nothing comes so often, the request before counted."""
        before = next(one.words for one in reversed(self.asked) if one.outcome.kind != "unsent")
        for _ in range(TIMES - was_silent):
            if self.record("still there", STILL_THERE, b"", self.way.control(STILL_THERE)).is_answer:
                return
        raise Hangs(f"the device answers nothing any more after {before}: unplug it and plug it in again")

    def other(self, group, setup, words, sent=b""):
        """A request of enumeration, which isn't judged by the rules of the class."""
        outcome = self.record(group, setup, sent, self.way.control(setup, sent), True)
        self.asked[-1].words = words
        if outcome.kind == "silent":
            self.see_whether_there(True)
        return outcome

    def text(self):
        return "".join(line + "\n" for line in self.lines)
