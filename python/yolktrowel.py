"""Yolktrowel in your own process: is a USB Audio Class 2.0 descriptor sound, what does it describe, what does a script of a bus come to.

The functions are the proved program's, from the shared library that tools/library builds; docs/LIBRARY.md says what is proved of a call.

    >>> import yolktrowel
    >>> yolktrowel.check(open("examples/headset.bin", "rb").read()).ok
    True
    >>> yolktrowel.check(b"")
    Verdict(ok=False, rule='G1', place=0, entity=None, interface=None, counts=None)

The library is libyolktrowel.so in the folder that YOLKTROWEL_LIBRARY names in the environment, or beside this file, or where tools/library
builds it in this repository. Calls on several threads run side by side."""
import ctypes, enum, os, re, typing

__all__ = ["Counts", "Element", "Refused", "Status", "Transcript", "Verdict", "answer", "check", "elements", "full", "gen", "pair",
           "panel", "run", "settle", "show"]


class Status(enum.IntEnum):
    """How a call ended: the exit statuses of the program."""
    OK = 0
    DESCRIPTOR = 1
    SCRIPT = 2
    USAGE = 3
    READ_FAULT = 4
    WRITE_FAULT = 5
    NO_MEMORY = 6
    TOO_LONG = 7


class Counts(typing.NamedTuple):
    """What a sound descriptor has."""
    blocks: int
    entities: int
    streams: int
    domains: int


class Verdict(typing.NamedTuple):
    """Whether a descriptor is sound, and if not, the first rule that it breaks.

    `rule` is its name, as 'G5' (docs/DESCRIPTORS.md) or 'U6' (docs/TOPOLOGY.md). A rule G has a `place`, in bytes from 0; a rule U has
    the id of the `entity` or the number of the `interface` that breaks it. A sound descriptor has `counts`. A verdict is true where the
    descriptor is sound."""
    ok: bool
    rule: typing.Optional[str] = None
    place: typing.Optional[int] = None
    entity: typing.Optional[int] = None
    interface: typing.Optional[int] = None
    counts: typing.Optional[Counts] = None

    def __bool__(self):
        return self.ok


class Element(typing.NamedTuple):
    """A control as a host's mixer shows it: its name, as 'volume.3.1', whether it can be written, and its value on a fresh device (None
    where the host doesn't know one)."""
    name: str
    writable: bool
    value: typing.Optional[int]


class Transcript(typing.NamedTuple):
    """What a script came to. `lines` are those that it printed. Where a line is refused, `rule` is the rule and `line` its number from 1
    (rules S), or `verdict` is that on the descriptor that its lines `d` give."""
    ok: bool
    lines: typing.List[str]
    rule: typing.Optional[str] = None
    line: typing.Optional[int] = None
    verdict: typing.Optional[Verdict] = None

    def __bool__(self):
        return self.ok


class Refused(ValueError):
    """The descriptor isn't sound; `verdict` says why."""

    def __init__(self, verdict):
        where = next(f"{name} {value}" for name, value in zip(("at", "entity", "interface"), verdict[2:5]) if value is not None)
        super().__init__(f"the descriptor breaks rule {verdict.rule} ({where})")
        self.verdict = verdict


_HERE = os.path.dirname(os.path.abspath(__file__))
_PLACES = (_HERE, os.path.join(_HERE, "../c/out"))
_BYTES = (ctypes.c_char_p, ctypes.c_size_t)
# What each function takes in front of the room.
_FUNCTIONS = {"check": _BYTES, "show": _BYTES, "elements": _BYTES, "run": _BYTES + (ctypes.c_bool,),
              "gen": (ctypes.c_uint32, ctypes.c_bool), "full": (ctypes.c_uint32,) + _BYTES, "pair": (ctypes.c_uint32,) + _BYTES,
              "panel": _BYTES, "settle": ()}
# What a text has room for at first: what is said of a descriptor, and a transcript, which takes as long again where that isn't enough.
_ROOM, _TRANSCRIPT = 1 << 14, 1 << 22
_library = None


def _loaded():
    """The library, loaded at the first call."""
    global _library
    if _library is None:
        named = os.environ.get("YOLKTROWEL_LIBRARY")
        paths = [os.path.join(folder, "libyolktrowel.so") for folder in ([named] if named else _PLACES)]
        path = next((path for path in paths if os.path.exists(path)), None)
        if path is None:
            raise OSError(f"there is no {paths[-1]}: tools/library builds it, and YOLKTROWEL_LIBRARY names another folder")
        library = ctypes.CDLL(path)
        for name, given in _FUNCTIONS.items():
            function = getattr(library, "uac_" + name)
            function.restype = ctypes.c_uint8
            function.argtypes = given + (ctypes.c_char_p, ctypes.c_size_t, ctypes.POINTER(ctypes.c_size_t))
        _library = library
    return _library


def answer(command, *given):
    """What a command says, as the program prints it: a Status and the whole text.

    `given` is what its function in c/yolktrowel.h takes in front of the room, as answer("check", data, len(data)). The room grows until
    the text fits. Raises MemoryError where there is no memory for the call."""
    function, written = getattr(_loaded(), "uac_" + command), ctypes.c_size_t()
    room = _TRANSCRIPT if command in ("run", "gen", "full", "pair", "panel") else _ROOM
    while True:
        text = ctypes.create_string_buffer(room)
        status = Status(function(*given, text, room, ctypes.byref(written)))
        if status == Status.NO_MEMORY:
            raise MemoryError("no memory for the call")
        if status != Status.WRITE_FAULT:
            return status, text.raw[:written.value].decode("ascii")
        room *= 8


def _given(data):
    """An input in bytes, or in text."""
    data = data.encode() if isinstance(data, str) else bytes(data)
    return data, len(data)


def _verdict(line):
    """The verdict of a line as `check` prints it."""
    counts = re.fullmatch(r"ok blocks (\d+) entities (\d+) streams (\d+) domains (\d+)", line)
    if counts:
        return Verdict(True, counts=Counts(*map(int, counts.groups())))
    rule, which, number = re.fullmatch(r"descriptor ([GU]\d+) (at|entity|interface) (\d+)", line).groups()
    return Verdict(False, rule, **{{"at": "place"}.get(which, which): int(number)})


def _listed(name, descriptor):
    """The lines that are told of a sound descriptor."""
    status, text = answer(name, *_given(descriptor))
    if status != Status.OK:
        raise _refusal(status, text)
    return text.splitlines()


def _refusal(status, text):
    if status == Status.TOO_LONG:
        return ValueError("the input has more than 268,435,456 bytes")
    return ValueError(text.strip()) if status == Status.USAGE else Refused(_verdict(text.splitlines()[-1]))


def _transcript(status, text):
    lines = text.splitlines()
    if status == Status.OK:
        return Transcript(True, lines)
    if status == Status.DESCRIPTOR:
        return Transcript(False, lines[:-1], verdict=_verdict(lines[-1]))
    if status != Status.SCRIPT:
        raise _refusal(status, text)
    rule, number = re.fullmatch(r"script (S\d+) line (\d+)", lines[-1]).groups()
    return Transcript(False, lines[:-1], rule, int(number))


def check(descriptor):
    """Judges the bytes of a configuration descriptor; a device descriptor in front is passed over. Returns a Verdict."""
    status, text = answer("check", *_given(descriptor))
    if status not in (Status.OK, Status.DESCRIPTOR):
        raise _refusal(status, text)
    return _verdict(text.splitlines()[-1])


def show(descriptor):
    """The blocks, the entities and the settings of a sound descriptor, a line each. Raises Refused where it isn't sound."""
    return _listed("show", descriptor)


def elements(descriptor):
    """What a host's mixer shows of a fresh device: a list of Elements. Raises Refused where the descriptor isn't sound."""
    found = []
    for line in _listed("elements", descriptor):
        name, access, value = line.split()
        found.append(Element(name, access == "rw", None if value == "unknown" else int(value)))
    return found


def run(script, lanes=False):
    """Does the lines of a script (docs/SCRIPT.md), in bytes or text, to the first that is refused. Returns a Transcript.

    `lanes` chooses the units that render eight lanes at a time; no line differs by it."""
    return _transcript(*answer("run", *_given(script), lanes))


def gen(number, lanes=False):
    """Does the lines of the script that is made from a number of 0 to 4294967295. Returns a Transcript."""
    if not 0 <= number < 1 << 32:
        raise ValueError(f"{number} is out of range: a number is 0 to 4294967295")
    return _transcript(*answer("gen", number, lanes))


def full(rate, script):
    """Does the lines of a script on one full-speed stream of this rate in Hz, up to 96,000. Returns a Transcript; raises ValueError at
    another rate."""
    return _transcript(*answer("full", rate, *_given(script)))


def pair(rate, script):
    """Does the lines of a script on a pair of streams of this rate in Hz, of which the host follows one by the other. Returns a
    Transcript; raises ValueError at another rate."""
    return _transcript(*answer("pair", rate, *_given(script)))


def panel(script):
    """Does the lines of a script on a front panel: knobs on a device, and a host that hears of them. Returns a Transcript."""
    return _transcript(*answer("panel", *_given(script)))


def settle():
    """After how many microframes without a lost packet a stream's level is back at its target, within four frames, by the rate in Hz."""
    rows = (line.split() for line in answer("settle")[1].splitlines())
    return {int(rate): int(count) for _, rate, _, count in rows}
