"""Whether a host's packets follow the reports that it was given: the sum of their frames beside the sum of the value in force.

A host has some packets handed in at any time, so a report can count for those alone that it hands in after it. It hands in again what
comes back, in order; so the most packets that it was seen to have handed in are taken for their number. Where it had none left for a while,
it may have paused or only been late: the sum is kept for both, begun anew after a pause, and what agrees with one of them follows the
reports.
The sums are kept as the packets come, however long a stream is; tools/judge looks at the record of the bus, whole, and finds the number by
itself."""
import collections

PART = 65536


class Sum:
    """The sum of the value in force, with one reading of which packets were handed in before a report."""

    def __init__(self, nominal):
        self.value, self.parts, self.ahead, self.reports, self.room = nominal, 0, 0, collections.deque(), PART

    def report(self, value, packets, ahead):
        self.ahead = max(self.ahead, ahead)
        self.reports.append((packets + self.ahead, value))

    def pause(self, frames, period):
        """Nothing is handed in: what comes next is handed in after all reports, and with a remainder that nobody knows. How many packets
        are handed in then is only seen after the first reports, which count for the more the longer a packet is."""
        if self.reports:
            self.value = self.reports[-1][1]
            self.reports.clear()
        self.ahead, self.parts, self.room = 0, frames * PART, (1 + period) * PART

    def apart(self, frames):
        """How far the frames are from the sum, beyond what a remainder makes."""
        return max(0, abs(frames * PART - self.parts) - self.room)

    def packet(self, packets, period):
        while self.reports and self.reports[0][0] <= packets:
            self.value = self.reports.popleft()[1]
        self.parts += self.value * period


class HostPace:
    """A stream's packets and reports, in their order: of packets of so many microframes, from a nominal value on."""

    def __init__(self, period, nominal):
        self.period, self.late, self.paused = period, Sum(nominal), Sum(nominal)
        self.packets, self.frames, self.parted, self.furthest = 0, 0, None, 0

    def report(self, value, ahead):
        """The host got a report when at least so many packets were handed in that hadn't been sent."""
        self.late.report(value, self.packets, ahead)
        self.paused.report(value, self.packets, ahead)

    def pause(self):
        """The host had no packet left."""
        self.paused.pause(self.frames, self.period)

    def packet(self, frames):
        self.late.packet(self.packets, self.period)
        self.paused.packet(self.packets, self.period)
        self.packets += 1
        self.frames += frames
        apart = min(self.late.apart(self.frames), self.paused.apart(self.frames))
        self.furthest = max(self.furthest, apart)
        if apart and self.parted is None:
            self.parted = self.packets

    def in_words(self):
        if not self.packets:
            return "the host sent no packet"
        ahead = f"{self.late.ahead} packets that it had handed in before a report are allowed for"
        if self.parted is None:
            return f"the host's packets follow the reports within a frame; {ahead}"
        return (f"the host's packets part from the reports by more than a frame from packet {self.parted} on, by up to "
                f"{self.furthest / PART + 1:.1f} frames; {ahead}")
