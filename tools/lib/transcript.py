"""What a transcript of a run at detail 2 tells of streams, microframe by microframe: levels, reports, the host's value, losses.

The host's value is that of the last report that came, from the microframe after it on. From a start on it is the nominal one, which the
transcript doesn't print: a stream's first report has it, come or lost, since a stream reports before it has primed."""
from tool import Refused

WANTED = "a transcript of a run at detail 2 is wanted (a line 'v 2' in the script)"
FRAME = 65536
# So many reports lost in succession, since a start, end what is promised of a steady run; so does a deviation past this.
UNSTEADY_REPORTS, STEADY_PPM = 4, 1000


class Playing:
    """A stream to the device: levels with targets, reports with whether they came, the host's values from the microframe of each on."""

    def __init__(self, number):
        self.number, self.levels, self.reports, self.values = number, [], [], []
        self.lost_packets, self.lost_reports, self.starts, self.unsteady = [], [], [], None
        self.begun, self.missed = None, 0

    def begin(self, at, is_amid=False):
        """A start: the value is the nominal one, told by the next report. Amid a run, where the detail came late, nothing tells it."""
        self.starts.append(at)
        self.begun, self.missed = None if is_amid else at, 0

    def add_level(self, at, level, target, ran_empty):
        """The level at a microframe's end. That a stream began anew is told by a level that fell while it primed, or by a target that went
        though the ring didn't run empty."""
        before = self.levels[-1] if self.levels else None
        is_fresh = before is not None and target is None and not ran_empty and (before[2] is not None or level < before[1])
        if before is None or is_fresh:
            self.begin(at, target is not None)
        self.levels.append((at, level, target))

    def add_report(self, at, value, is_lost):
        if self.begun is not None:
            self.values.append((self.begun, value))
            self.begun = None
        self.reports.append((at, value, is_lost))
        if is_lost:
            self.lost_reports.append(at)
            self.missed += 1
            if self.missed >= UNSTEADY_REPORTS and self.unsteady is None:
                self.unsteady = at
        else:
            self.values.append((at + 1, value))
            self.missed = 0

    def misses(self):
        """How far the level is from its target, where there is one."""
        return [(at, None if target is None else level - target) for at, level, target in self.levels]

    def runs(self):
        """From each start of the stream to the last microframe of which it tells before the next."""
        for begin, end in zip(self.starts, [*self.starts[1:], None]):
            yield begin, next(at for at, *_ in reversed(self.levels) if end is None or at < end)


class Recording:
    """A stream from the device: its packets with their frames, and whether they came."""

    def __init__(self, number):
        self.number, self.packets, self.lost_packets = number, [], []


class Transcript:
    """The streams of a transcript by their numbers, its last microframe, where rings ran empty or were full, and whether it was steady."""

    def __init__(self, name, wanted):
        self.name, self.wanted = name, wanted
        self.playing, self.recording, self.under, self.over = {}, {}, {}, {}
        self.last, self.steady = 0, None

    def take(self, words):
        """What a line says, in the microframe that the last line `u` named."""
        kind, now = words[0], self.last
        if kind == "steady":
            self.steady = {"yes": True, "no": False}[words[1]]
        elif not now or kind not in ("o", "i", "l", "f", "under", "over"):
            return
        elif kind in ("under", "over"):
            (self.under if kind == "under" else self.over).setdefault(int(words[1]), []).append(now)
        elif kind == "i":
            stream = self.recording.setdefault(int(words[1]), Recording(int(words[1])))
            is_lost = words[3] == "lost"
            stream.packets.append((now, int(words[2]), is_lost))
            stream.lost_packets += [now] if is_lost else []
        else:
            self.take_playing(kind, words, self.playing.setdefault(int(words[1]), Playing(int(words[1]))))

    def take_playing(self, kind, words, stream):
        now = self.last
        if kind == "o" and words[3] == "lost":
            stream.lost_packets.append(now)
        elif kind == "l":
            ran_empty = self.under.get(stream.number, [0])[-1] > (stream.levels[-1][0] if stream.levels else 0)
            stream.add_level(now, int(words[2]), None if words[3] == "-" else int(words[3]), ran_empty)
        elif kind == "f":
            stream.add_report(now, int(words[2], 16), words[3] == "lost")

    def played(self):
        return [self.playing[number] for number in sorted(self.playing) if self.playing[number].levels]

    def recorded(self):
        return [self.recording[number] for number in sorted(self.recording)]


def read_transcript(name, text, wanted=WANTED):
    """What a transcript tells; a transcript without a microframe, or without a stream, is refused."""
    told = Transcript(name, wanted)
    for number, line in enumerate(text.splitlines(), 1):
        words = line.split(" ")
        try:
            if words[0] == "u":
                told.last = int(words[1])
            else:
                told.take(words)
        except (ValueError, IndexError, KeyError):
            raise Refused(f"line {number} of {name} is no line of a transcript ('{line[:40]}'): {wanted}")
    if not told.last:
        raise Refused(f"{name} tells of no microframe: {wanted}")
    if not told.played() and not told.recorded():
        raise Refused(f"{name} tells of no stream that ran: {wanted}")
    return told


def frames_of(value):
    """A value in frames of a microframe, to its last digit that counts."""
    return f"{value / FRAME:.6f}"


def events_of(told, stream):
    """What happened to a stream, by microframe, in words."""
    found = {}
    for words, places in (("packet lost", stream.lost_packets), ("ring ran empty", told.under.get(stream.number, [])),
                          ("ring was full", told.over.get(stream.number, []))):
        for at in dict.fromkeys(places):
            found.setdefault(at, []).append(words)
    for at, value, is_lost in stream.reports:
        found.setdefault(at, []).append(f"report {frames_of(value)}" + (" lost" if is_lost else ""))
    return found


def level_rows(told):
    """A table of the levels: a row for each stream to the device and microframe in which it had one."""
    yield "microframe        ms  stream  level  target  host's value  what happened"
    rows = []
    for stream in told.played():
        events, values = events_of(told, stream), dict(stream.values)
        value = None
        for at, level, target in stream.levels:
            value = next((values[one] for one in range(at, max(at - 8, 0), -1) if one in values), value)
            rows.append((at, stream.number, level, target, value, events.get(at, [])))
    for at, number, level, target, value, words in sorted(rows, key=lambda row: row[:2]):
        row = f"{at:10} {at / 8:9.3f} {number:7} {level:6} {'-' if target is None else target:>7} "
        yield (row + f"{'-' if value is None else frames_of(value):>13}  {', '.join(words)}").rstrip()
