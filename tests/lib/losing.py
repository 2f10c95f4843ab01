"""A host that loses a packet whenever that would help to empty the ring: at 44,100 Hz packets have five or six frames, and the clock ticks
five or six times in a microframe; each packet of six is lost in whose microframe the clock ticks five times, and five zeros replace it.

The sizes and the ticks are worked out here, by docs/STREAMS.md: the value in force and the clock's step, of which 65,536 parts make a
frame, each with a remainder that is kept."""

FRAME = 65536
NOMINAL = 44100 * FRAME // 8000
LEAST, MOST = 5, 6
PERIOD = 8
MICROFRAMES = 8000
PRIMED_FROM = 256


class Share:
    """Whole frames of parts that are added up; what is left of a frame is kept."""

    def __init__(self):
        self.rest = 0

    def take(self, parts):
        frames, self.rest = divmod(self.rest + parts, FRAME)
        return frames


def losses():
    """Whether the packet of each microframe is lost."""
    host, clock = Share(), Share()
    # the clock runs for a microframe before the stream starts
    clock.take(NOMINAL)
    value, level, target = NOMINAL, 0, None
    for count in range(1, MICROFRAMES + 1):
        size, ticks = host.take(value), clock.take(NOMINAL)
        lost = size == MOST and ticks == LEAST
        level += (ticks if lost else size) - (0 if target is None else ticks)
        if target is None and level >= PRIMED_FROM:
            target = level
        if count % PERIOD == 0:
            wanted = NOMINAL if target is None else NOMINAL + 1024 * (target - level)
            value = min(max(wanted, LEAST * FRAME), MOST * FRAME)
        yield lost


def script():
    """The lines behind the headset's descriptor, one for each microframe."""
    front = b"g\nc 2101000100010400 44ac0000\nm 1\nc 010b010001000000\nv 2\n"
    return front + b"".join(b"m 1 o1\n" if lost else b"m 1\n" for lost in losses())


def why_not_played(text):
    """What is wrong where a packet was lost that shouldn't be, or came that should be lost; None where the text shows the host as it is
    described: in each microframe the packet's frames, the ticks, and whether it came."""
    parts = text.decode("ascii", "replace").split("\nu ")[1:]
    if len(parts) != MICROFRAMES:
        return f"{len(parts)} microframes, and not {MICROFRAMES}"
    for part in parts:
        lines = part.split("\n")
        ticks = sum(line.startswith("p ") for line in lines)
        (packet,) = (line for line in lines if line.startswith("o "))
        size, came = packet.split()[2:]
        if came != ("lost" if (int(size), ticks) == (MOST, LEAST) else "ok"):
            return f"microframe {lines[0]}: {ticks} ticks and '{packet}'"
    return None
