"""A script as tools/script_of makes it, read: the descriptor, the transfers with what the real device said of each, and what its comments
keep of packets, reports and interrupt messages."""
import re
from streams import Event
from tool import Refused

# The letters of a script's lines.
LETTERS = "dgchbatjkmvq"
# A comment that tells a device's answer: of tools/script_of, and of a script whose comments are a transcript.
SAID = re.compile(r"# (?:said|c) (.*)")
ASKED = "more than was asked for"
# Where a host waited so long, and nothing came.
SILENT = re.compile(r"nothing within (\d+) seconds?")


class Said:
    """What a device answered: bytes, done, a stall, or nothing, where the transfer broke, or none came in `seconds` (else None)."""

    def __init__(self, text):
        self.text, words, silent = text, text.split(" "), SILENT.fullmatch(text)
        self.kind = words[0] if words[0] in ("bytes", "done", "stall") else "overflow" if text.startswith(ASKED) else "broken"
        self.seconds = None if silent is None else int(silent[1])
        self.data = b""
        if self.kind == "bytes":
            self.data = bytes.fromhex("" if words[1] == "-" else words[1])
        self.is_whole = not text.endswith(" and more")


class Kept:
    """A transfer of a script with what the device said of it (None where that isn't kept)."""

    def __init__(self, line, setup, sent):
        self.line, self.setup, self.sent, self.said = line, setup, sent, None


class Moment:
    """What went over the bus in a microframe."""

    def __init__(self, line, number, events):
        self.line, self.number, self.events = line, number, events


class Message:
    """An interrupt message."""

    def __init__(self, line, data):
        self.line, self.data = line, data


class Configured:
    """The host chose a configuration: settings and controls begin anew."""

    def __init__(self, line):
        self.line = line


def event_of(words, line):
    """An event of a comment '# bus', as 'o 1 6 ok 36 after 2', 'i 2 6 lost 12', 'f 1 00060000 ok 00000600'."""
    letter, interface, told, state, rest = words[0], int(words[1]), words[2], words[3], words[4]
    if letter not in ("o", "i", "f") or state not in ("ok", "lost", "untold"):
        raise ValueError(letter)
    if letter == "f":
        data = None if state != "ok" else b"" if rest == "-" else bytes.fromhex(rest)
        return Event(letter, interface, state, data=data, line=line)
    after = int(words[6]) if words[5:6] == ["after"] else None
    return Event(letter, interface, state, size=None if rest == "-" else int(rest), after=after, line=line)


class Script:
    """The descriptor's bytes, the speed, the notes of the capture, and everything else in order."""

    def __init__(self):
        self.descriptor, self.speed, self.notes, self.items = "", None, [], []

    @property
    def transfers(self):
        return [item for item in self.items if isinstance(item, Kept)]

    @property
    def has_answers(self):
        return any(kept.said is not None for kept in self.transfers) or any(isinstance(item, Moment) for item in self.items)

    def comment(self, line, number):
        said, bus = SAID.fullmatch(line), re.fullmatch(r"# bus (\d+): (.*)", line)
        last = self.items[-1] if self.items else None
        if said is not None and isinstance(last, Kept) and last.line == number - 1:
            last.said = Said(said[1])
        elif bus is not None:
            events = [event_of(part.split(" "), number) for part in bus[2].split(", ")]
            self.items.append(Moment(number, int(bus[1]), events))
        elif line.startswith("# message "):
            self.items.append(Message(number, bytes.fromhex(line.split(" ")[2])))
        elif re.match(r"# 0009[0-9a-f]{12}: .*; said done", line):
            self.items.append(Configured(number))
        elif line.startswith("# note: "):
            self.notes.append(line[len("# note: "):])
        elif re.fullmatch(r"# bus \d+, device \d+, .* full speed", line):
            self.speed = "full"

    def line(self, line, number):
        words = line.split(" ")
        if line.startswith("#") or not line:
            self.comment(line, number)
        elif words[0] == "d" and len(words) == 2:
            self.descriptor += words[1]
        elif words[0] == "c" and len(words) in (2, 3):
            setup = bytes.fromhex(words[1])
            if len(setup) != 8:
                raise ValueError(line)
            self.items.append(Kept(number, setup, bytes.fromhex("".join(words[2:]))))
        elif len(words[0]) != 1 or words[0] not in LETTERS:
            raise Refused(f"line {number} is no line of a script (S2): it begins with none of the letters {' '.join(LETTERS)}")


def read_script(name, data, wanted):
    """The script in these bytes; what is none is refused."""
    script = Script()
    try:
        for number, line in enumerate(data.decode("ascii").splitlines(), 1):
            script.line(line, number)
        bytes.fromhex(script.descriptor)
    except (ValueError, IndexError):
        raise Refused(f"{name} is no script: {wanted}")
    if not script.has_answers:
        raise Refused(f"{name} keeps no answer of a device: {wanted}")
    return script
