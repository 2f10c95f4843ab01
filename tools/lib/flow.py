"""The streams of a device that a host runs: what the host sent, the track of the program's own host, the ring, and the jacks.

The script has no line for a packet as a host made it. What the host sends waits here, and is said to the program as samples of the track
from which the program's own host takes its packets, by the same reports. A packet that the host skipped is lost there when its place is
reached: so many silent frames stand in the track for it as the program's host will take for that packet, so that nothing that was sent is
lost with it."""
import array, collections, sys

# What waits is frames, as their samples are spelt in a script, SILENT for one that nobody sent, and SKIP for a packet that the host
# skipped.
SILENT, SKIP = None, "skip"


def samples_of(data, subslot):
    """The samples of a packet's bytes as numbers of 32 bits, each at the top of them."""
    if sys.byteorder != "little":
        step = range(0, len(data), subslot)
        return [int.from_bytes(data[at:at + subslot], "little", signed=True) << 32 - 8 * subslot for at in step]
    room = bytearray(len(data) // subslot * 4)
    for at in range(subslot):
        room[4 - subslot + at::4] = data[at::subslot]
    return array.array("i", bytes(room))


def bytes_of(samples, subslot):
    """The bytes of samples of 32 bits, of which the upper ones are sent."""
    if sys.byteorder != "little":
        return b"".join((sample >> 32 - 8 * subslot & (1 << 8 * subslot) - 1).to_bytes(subslot, "little") for sample in samples)
    whole = array.array("i", samples).tobytes()
    if subslot == 4:
        return whole
    room = bytearray(len(whole) // 4 * subslot)
    for at in range(subslot):
        room[at::subslot] = whole[4 - subslot + at::4]
    return bytes(room)


class Pipe:
    """An endpoint of a stream that runs, which is due each `period` microframes: the transfers that wait, when one was there last, and
    how many packets were answered in this turn."""

    def __init__(self, address, period, now):
        self.address, self.period, self.transfers, self.last, self.answered = address, period, collections.deque(), now, 0

    def until_due(self, age):
        """In how many microframes it is due, from 1 on."""
        return self.period - age % self.period

    def count_due(self, age, microframes):
        """How often it is due in so many microframes."""
        return (age + microframes) // self.period - age // self.period

    def reach(self, age, most):
        """For how many of so many microframes the packets suffice that the host handed in."""
        reach, wanted = self.until_due(age) - 1, most
        for one in self.transfers:
            if reach >= wanted:
                break
            reach += self.period * (len(one.packets) - one.at)
        return min(reach, most)


class InStream:
    """A stream from the device."""

    def __init__(self, form, now):
        self.form, self.data, self.feedback = form, Pipe(form.data, form.period, now), None
        self.age = self.packets = self.frames = self.lost = self.cut = 0
        self.is_closing, self.heard = False, []

    pipes = property(lambda self: [self.data])

    def restart(self, _):
        self.age = 0

    def begin_microframe(self):
        self.age += 1


class OutStream:
    """A stream to the device: what waits, the track, and the ring, as far as what was printed tells of it."""

    def __init__(self, form, nominal, cushion, now, jack):
        self.form, self.data = form, Pipe(form.data, form.period, now)
        self.feedback = Pipe(form.feedback, form.report_period, now)
        self.cushion, self.is_closing, self.has_sent = cushion, False, False
        self.waiting, self.track, self.skips, self.silence = collections.deque(), collections.deque(), 0, " ".join(["0"] * form.channels)
        self.packets = self.frames = self.odd = self.lost = self.over = self.under = self.gaps = 0
        self.reports, self.reports_lost, self.reports_unasked, self.least, self.most = 0, 0, 0, None, None
        # The jack that is listened to (None where there is none); frames that came out as sent, otherwise, and that nobody compared.
        self.jack, self.heard, self.otherwise, self.unjudged = jack, 0, 0, 0
        self.count, self.apart, self.is_plain, self.is_whole = 0, (0, 0), True, form.bits == 8 * form.subslot
        self.restart(nominal)

    pipes = property(lambda self: [self.data, self.feedback])

    def restart(self, nominal):
        """The program's stream begins anew: what its track still has waits again, and what was in its ring is gone."""
        self.value = self.nominal = nominal
        self.total = self.formed = self.ticks = self.since = 0
        self.waiting.extendleft(reversed(self.track))
        self.track, self.ring, self.is_primed, self.is_lost, self.is_exact = collections.deque(), collections.deque(), False, False, True
        self.level = self.age = self.gained = self.formed_last = 0
        self.reported = None

    # ---- from the host

    def take_packets(self, one, count):
        """So many of the next packets of a transfer wait from now on."""
        pieces = []
        for place, length in one.packets[one.at:one.at + count]:
            whole = length - length % self.form.frame
            self.odd += whole != length
            pieces.append(one.data[place:place + whole])
        texts, channels = list(map(str, samples_of(b"".join(pieces), self.form.subslot))), self.form.channels
        frames = texts if channels == 1 else [" ".join(texts[at:at + channels]) for at in range(0, len(texts), channels)]
        self.waiting.extend(frames)
        self.packets += count
        self.frames += len(frames)
        self.has_sent = self.has_sent or bool(frames)

    def skip_packet(self):
        """The host skipped a packet."""
        self.waiting.append(SKIP)
        self.skips += 1

    # ---- to the program

    @property
    def is_fed(self):
        """Whether the cushion is there, or the stream's end has come: what waits goes onto the track."""
        return self.is_closing or self.count >= self.cushion

    def bound(self, microframes):
        """At least as many frames as the program's host takes in so many microframes."""
        return (microframes + self.form.period) * ((self.nominal >> 16) + 2)

    def before_skip(self, most):
        """How many frames are left before the first packet that was skipped, counted up to `most`."""
        count = len(self.track)
        for frame in self.waiting:
            if frame is SKIP or count >= most:
                break
            count += 1
        return count

    def clear_for(self, microframes, until_report):
        """How many of so many microframes may be done in one turn. Near a packet that was skipped a turn ends with the next report that the
        host gets, since the size of each packet has to be known."""
        if not self.is_fed:
            return min(microframes, self.cushion - self.count)
        if not self.skips or self.before_skip(self.bound(microframes)) >= self.bound(microframes):
            return microframes
        return min(microframes, until_report)

    def feed(self, microframes):
        """What is to be put onto the track for so many microframes, and in which of them the packet is lost."""
        if not self.is_fed:
            return [], set()
        bound = self.bound(microframes)
        if self.skips and self.before_skip(bound) < bound:
            return self.feed_by_packet(microframes)
        frames = []
        while len(self.track) < bound and self.waiting and self.waiting[0] is not SKIP:
            frames.append(self.waiting.popleft())
            self.track.append(frames[-1])
        return frames, set()

    def feed_by_packet(self, microframes):
        """The same where a skipped packet may be reached: each packet gets exactly its frames."""
        ready, frames, lost, total, formed = len(self.track), [], set(), self.total, self.formed
        for at in range(1, microframes + 1):
            total += self.value
            if (self.age + at) % self.form.period:
                continue
            size, formed = (total >> 16) - formed, total >> 16
            if not ready and self.waiting and self.waiting[0] is SKIP:
                self.waiting.popleft()
                self.skips -= 1
                lost.add(at)
                self.put(frames, [SILENT] * size)
                continue
            used = min(ready, size)
            ready -= used
            self.put(frames, self.next_frames(size - used))
        return frames, lost

    def next_frames(self, count):
        """So many frames that wait, also those behind skipped packets; silence where there are none."""
        taken, passed = [], 0
        while len(taken) < count and self.waiting:
            frame = self.waiting.popleft()
            if frame is SKIP:
                passed += 1
            else:
                taken.append(frame)
        self.waiting.extendleft([SKIP] * passed)
        missing = count - len(taken)
        if self.has_sent and not self.is_closing:
            self.gaps += missing
        return taken + [SILENT] * missing

    def put(self, frames, more):
        frames += more
        self.track.extend(more)

    # ---- what the program printed

    def begin_microframe(self):
        self.total += self.value
        self.count += 1
        self.age += 1

    def form_packet(self, frames, word):
        """The program's host formed a packet."""
        expected = (self.total >> 16) - self.formed
        self.formed_last = frames
        self.formed += frames
        self.is_exact = self.is_exact and frames == expected
        taken = [self.track.popleft() for _ in range(min(frames, len(self.track)))]
        missing = frames - len(taken)
        if missing and self.count > self.cushion and self.has_sent and not self.is_closing:
            self.gaps += missing
        taken += [SILENT] * missing
        self.since = 0 if len(taken) > missing else self.since + frames
        self.is_lost = word == "lost"
        self.lost += self.is_lost
        self.over += word == "over"
        if word == "ok":
            self.ring.extend(taken)

    def take_ticks(self, front, lines):
        """Frames of the stream's jack came out, a line each, which begins with `front`."""
        count = len(lines)
        self.ticks += count
        frames = [self.ring.popleft() for _ in range(min(count, len(self.ring)))] if self.is_primed else []
        frames += [SILENT] * (count - len(frames))
        sent = count - frames.count(SILENT)
        if not self.is_exact or not self.is_plain:
            self.unjudged += sent
            return
        wanted = [front + (self.silence if frame is SILENT else frame if self.is_whole else self.cut(frame)) for frame in frames]
        if wanted == lines:
            self.heard += sent
            return
        for frame, want, line in zip(frames, wanted, lines):
            self.otherwise += want != line
            self.heard += want == line and frame is not SILENT

    def cut(self, frame):
        """A frame cut to the bits of the format."""
        return " ".join(str(int(sample) >> 32 - self.form.bits << 32 - self.form.bits) for sample in frame.split(" "))

    def run_dry(self):
        self.under += 1
        self.is_primed = False

    def settle(self, level, target):
        """The end of a service interval, with the ring's level and its target."""
        if self.is_lost:
            self.ring.extend([SILENT] * self.ticks)
            self.is_lost = False
        self.ticks, self.level, self.is_primed = 0, level, target != "-"
        self.is_exact = self.is_exact and (self.jack is None or len(self.ring) == level)

    def measure(self, frames):
        """How far the host's frames are from those of the program's own host, once the host's next packet has so many."""
        self.gained += frames
        apart = self.gained - self.formed
        self.apart = min(self.apart[0], apart), max(self.apart[1], apart)

    def hear_report(self, value):
        """The host got a report: it holds from the next microframe on."""
        self.value = value
        self.reports += 1
        self.least = value if self.least is None else min(self.least, value)
        self.most = value if self.most is None else max(self.most, value)

    def is_played(self):
        """Whether all that the host sent came out, as far as it will."""
        return not self.has_sent or not self.track and not self.waiting and self.since >= self.level
