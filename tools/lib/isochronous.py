"""What isochronous packets make of a script: lines `m` for the microframes that went by, with what was lost in them, and in front of each,
as comments, what went over the bus.

A comment '# bus 8: o 1 6 ok 36 after 2, f 1 00060000 ok 00000600' tells of microframe 8 (from 1): a packet to interface 1 with 6 frames,
which came over, with 36 bytes, handed in by the host after it had heard 2 reports; and a report of interface 1, its value and its bytes.
A packet from interface 2 is 'i 2 6 ok 12'. What was lost has 'lost' in place of 'ok', and what the capture doesn't keep 'untold'.

The host's driver hands packets in by bursts. A burst goes on where the one before ended, or later by what its own place says; where a
capture has no places, the packets themselves are counted.
A lost packet is marked in all microframes of its interval: the device of the script may be due in another of them, and only in one."""
import bisect
from capture import TAKEN_BACK
from controls import service_of
from descriptor import cut, little, settings_of
from differences import counted

# The length of a frame of the bus in microseconds.
LENGTHS = {"high": 125, "full": 1000}
# A longer pause (one second) is not run through, nor is one between the places of two bursts believed.
PAUSE = 8000
MOST_OF_A_LINE = 8000
# An endpoint whose packets end so far behind the others' isn't waited for.
BEHIND = 64


class End:
    """An endpoint of a stream: the letter of its marks, how many microframes a packet has, and the bytes of a frame (None: unknown)."""

    def __init__(self, setting, endpoint):
        self.letter = "f" if endpoint["attributes"] >> 4 & 3 == 1 else "i" if endpoint["address"] & 0x80 else "o"
        self.width = service_of(endpoint)
        form, general = setting.get("type_one"), setting["general"]
        self.frame = general["channels"] * form["subslot"] if form is not None else None


def endpoints_of(configuration):
    """The endpoints of streams by interface, setting and address."""
    found = {}
    for setting in settings_of(cut(configuration)[0]):
        if setting.get("general") is None or not setting["general"]["link"]:
            continue
        for endpoint in setting["endpoint"]:
            found[setting["number"], setting["setting"], endpoint["address"]] = End(setting, endpoint)
    return found


def spell_report(data):
    """A report's value and its bytes."""
    return f"{little(data):0{2 * len(data)}x}", data.hex()


class Packet:
    """A packet of a burst: its state (ok, lost or untold), its length, and its bytes where they are kept."""

    def __init__(self, burst, number):
        status, self.size = burst.packets[number]
        self.state = "untold" if status is None else "ok" if status == 0 else "lost"
        self.data = burst.reports[number]
        self.is_empty = status == 0 and self.size == 0
        if self.state == "lost":
            self.size = None if burst.sizes is None or burst.endpoint & 0x80 else burst.sizes[number]

    def spell(self, end, interface, heard):
        """The packet as the comment tells it."""
        front = f"{end.letter} {interface}"
        if end.letter == "f":
            if self.state == "ok" and self.data is None:
                return f"{front} - untold -"
            value, data = spell_report(self.data) if self.state == "ok" and self.data else ("-", "-")
            return f"{front} {value} {self.state} {data}"
        frames = "-" if self.size is None or not end.frame else str(self.size // end.frame)
        told = f"{front} {frames} {self.state} {'-' if self.size is None else self.size}"
        return told if end.letter == "i" or heard is None else f"{told} after {heard}"


class Microframes:
    """The microframes that went by: where the next packet of each endpoint stands, what was lost, and up to where lines were told.
    At full speed they are the bus's frames of a millisecond, and have comments alone. Where records are missing, what isn't there needn't
    be lost."""

    def __init__(self, configuration, speed="high", has_places=True, misses_records=False):
        self.endpoints, self.speed, self.has_places, self.misses_records = endpoints_of(configuration), speed, has_places, misses_records
        self.settings, self.next, self.starts, self.lost, self.said, self.heard = {}, {}, {}, {}, {}, {}
        self.begun, self.told, self.now, self.unplaced, self.pause, self.strays = None, 0, 0, 0, 0, {}

    def set_interface(self, interface, setting):
        """The interface's packets begin anew."""
        self.settings[interface] = setting
        self.heard[interface] = []
        self.next = {key: at for key, at in self.next.items() if key[0] != interface}

    def key_of(self, address):
        """The running endpoint with this address: its interface, setting and address."""
        keys = [(number, setting, address) for number, setting in self.settings.items()]
        return next((key for key in keys if key in self.endpoints), None)

    def by_time(self, burst, length):
        """The microframe in which a burst of this length began, by the time at which it ended."""
        ended = burst.ended // LENGTHS[self.speed]
        if self.begun is None:
            self.begun = ended - length
        return ended - length - self.begun

    def by_others(self, burst):
        """The microframe in which a burst began, by the places of other endpoints' packets; None where none of them helps."""
        for key, at in self.next.items():
            if self.starts.get(key) is not None and burst.start is not None and abs(burst.start - self.starts[key]) <= BEHIND:
                return at + burst.start - self.starts[key]
        return None

    def place_of(self, key, burst, length):
        """The microframe of a burst's first packet: after the one before, and later by what the host's own count skipped."""
        if key not in self.next:
            if not self.has_places:
                return self.told
            at = self.by_others(burst)
            return self.by_time(burst, length) if at is None else at
        at, before = self.next[key], self.starts.get(key)
        skipped = 0 if not self.has_places or None in (before, burst.start) else burst.start - before
        return at + skipped if 0 < skipped <= PAUSE else at

    def lose(self, mark, begin, end):
        """The packet of these microframes was lost."""
        for microframe in range(begin, end):
            self.lost.setdefault(microframe, set()).add(mark)

    def leave_out(self, at):
        """A pause before this place isn't run through: time goes on without it."""
        if at > self.now + PAUSE:
            self.pause += at - self.now
            self.begun = None if self.begun is None else self.begun + at - self.now
            return self.now
        return at

    def add(self, burst):
        """Takes in the packets of a burst. A report without bytes is none, and where the host skipped microframes it sent nothing."""
        key = self.key_of(burst.endpoint)
        if burst.status in TAKEN_BACK:
            return
        if key is None:
            self.strays[burst.endpoint] = self.strays.get(burst.endpoint, 0) + len(burst.packets)
            return
        end, failed = self.endpoints[key], 0
        mark, length = f"{end.letter}{key[0]}", end.width * len(burst.packets)
        at = self.leave_out(self.place_of(key, burst, length))
        if not self.misses_records:
            self.lose(mark, max(self.next.get(key, at), self.told), at)
        at = max(at, self.told)
        heard = None if burst.handed is None else bisect.bisect_left(self.heard[key[0]], burst.handed)
        for packet in (Packet(burst, number) for number in range(len(burst.packets))):
            if packet.state == "lost" or end.letter == "f" and packet.is_empty:
                failed += packet.state == "lost"
                self.lose(mark, at, at + end.width)
            elif end.letter == "f":
                self.heard[key[0]].append(burst.turn)
            at += end.width
            self.said.setdefault(at, []).append((end.letter, key[0], packet.spell(end, key[0], heard)))
        self.unplaced += max(burst.failed - failed, 0)
        self.next[key], self.now = at, max(self.now, at)
        self.starts[key] = None if burst.start is None else burst.start + length

    def end(self, interface):
        """An interface's stream ends here: what didn't come until now never came."""
        for key, at in self.next.items():
            end = self.endpoints[key]
            if key[0] == interface and self.now - at >= end.width and not self.misses_records:
                self.lose(f"{end.letter}{key[0]}", max(at, self.told), self.now)

    def due(self):
        """Up to where all endpoints that run have told their packets."""
        return min([self.now, *[at for at in self.next.values() if at > self.now - BEHIND]])

    def comments(self, begin, end):
        """What went over the bus in these microframes."""
        for microframe in range(begin + 1, end + 1):
            said = sorted(self.said.pop(microframe, []), key=lambda one: ("oif".index(one[0]), one[1]))
            if said:
                yield f"# bus {microframe}: " + ", ".join(words for _, _, words in said)

    def lines(self, is_whole):
        """The lines `m` with their comments, and what can't be told: up to now, or up to where all endpoints have told theirs."""
        if self.pause:
            yield f"# a pause of {self.pause} microframes without packets is left out"
        now = self.now if is_whole else self.due()
        while self.told < now:
            marks, count = self.lost.pop(self.told, set()), 1
            while count < MOST_OF_A_LINE and self.told + count < now and self.lost.get(self.told + count, set()) == marks:
                self.lost.pop(self.told + count, None)
                count += 1
            yield from self.comments(self.told, self.told + count)
            if self.speed == "high":
                yield " ".join([f"m {count}"] + sorted(marks, key=lambda mark: ("oif".index(mark[0]), int(mark[1:]))))
            self.told += count
        if self.unplaced:
            were = "was" if self.unplaced == 1 else "were"
            yield f"# {counted(self.unplaced, 'more packet')} {were} lost, and the capture doesn't keep which"
        self.pause = self.unplaced = 0
