"""What a host did with a device, a line each in words, and the report at the end of its visit."""
import collections
from request import Request
from tool import rules

SENTENCES = rules()
# So many different stalls and remarks are kept of a visit.
MOST_KEPT = 200


def counted(count, what):
    return f"{count} {what}" + ("" if count == 1 else "s")


class Account:
    """One visit: which controls were set and read back, what was stalled, which streams ran and what became of their frames."""

    def __init__(self, device, peer, say):
        self.device, self.peer, self.say = device, peer, say
        self.values = {name: value for name, (_, value) in device.elements.items()}
        self.asked, self.set, self.read_back, self.remarks = collections.Counter(), collections.Counter(), {}, []
        self.stalls, self.runs, self.microframes = collections.Counter(), [], 0

    def remark(self, text):
        """Said at once, and once in the report; only so many, since a host may ask anything."""
        if text not in self.remarks and len(self.remarks) < MOST_KEPT:
            self.remarks.append(text)
            self.say(text)

    # ---- requests

    def request(self, setup, sent, answer):
        """A request that the program answered."""
        one = Request(setup, sent, self.device.blocks)
        self.asked[one.name] += 1
        words = answer.split(" ")
        name = one.target if one.control is not None and one.control.element else None
        if words[1] == "stall":
            self.stall(one.in_words(), words[2])
        elif words[1] == "broken":
            self.say(f"{one.in_words()} broke")
            if one.name == "SET CUR" and name in self.values:
                self.values[name] = None
        elif one.name == "SET CUR":
            self.set[one.target] += 1
            self.say(f"{one.in_words()}{self.in_decibels(one)}")
            if name in self.values:
                self.values[name] = one.control.value_of(sent)
                self.read_back[name] = False
        elif one.name == "GET CUR" and name in self.read_back:
            self.read_back[name] = True
        return one

    def in_decibels(self, one):
        """What a volume's value is in decibels."""
        if one.control is None or one.control.element not in ("volume", "mix") or len(one.sent) != one.control.width:
            return ""
        value = one.control.value_of(one.sent)
        return " (silence)" if value == -32768 else f" ({value / 256:g} dB)"

    def stall(self, what, rule):
        sentence = SENTENCES.get(rule)
        if len(self.stalls) < MOST_KEPT or (what, rule) in self.stalls:
            self.stalls[what, rule] += 1
        self.say(f"stalled {what} by {rule}" + (f": {sentence}" if sentence else ""))

    def is_plain(self, features):
        """Whether nothing on this way changes a sample: its features neither mute nor change a volume."""
        return all(value == 0 for name, value in self.values.items()
                   if name.split(".")[0] in ("mute", "volume") and int(name.split(".")[1]) in features)

    # ---- the report

    def stream_lines(self, stream):
        form = stream.form
        yield (f"stream {form.interface} setting {form.setting}, {form.in_words()}, {stream.rate} Hz, "
               f"microframes {stream.began} to {stream.ended}")
        if not form.is_out:
            yield (f"  {counted(stream.packets, 'packet')} to the host with {counted(stream.frames, 'frame')}, "
                   f"{stream.lost} that nobody asked for")
            if stream.cut:
                yield f"  {counted(stream.cut, 'packet')} longer than the host asked for, and cut"
            return
        yield (f"  {counted(stream.packets, 'packet')} of the host with {counted(stream.frames, 'frame')}, "
               f"{counted(stream.lost, 'packet')} lost")
        yield (f"  {counted(stream.reports, 'report')} given" +
               ("" if stream.least is None else f", of {stream.least / 65536:.4f} to {stream.most / 65536:.4f} frames a microframe") +
               f"; {stream.reports_lost} lost, {stream.reports_unasked} that nobody asked for")
        yield f"  {stream.judge.in_words()}"
        yield f"  the host was {stream.apart[0]} to {stream.apart[1]} frames ahead of the program's own host"
        for count, what in ((stream.odd, "packets weren't whole frames"), (stream.over, "packets found no room in the ring"),
                            (stream.under, "times the ring ran empty"), (stream.gaps, "silent frames stood where the track had run out")):
            if count:
                yield f"  {count} {what}"
        yield "  " + self.heard_line(stream)

    def heard_line(self, stream):
        if stream.jack is None:
            return "no jack plays it unmixed: its samples weren't compared"
        left = stream.frames - stream.heard - stream.otherwise - stream.unjudged
        line = f"jack {stream.jack}: {counted(stream.heard, 'frame')} came out as sent, {stream.otherwise} otherwise"
        if stream.unjudged:
            why = "a feature on the way wasn't at 0 dB" if stream.is_exact else "the ring's level isn't what was put into it"
            line += f", {stream.unjudged} not compared, since {why}"
        return line + (f", {left} never came out" if left > 0 else "")

    def lines(self, streams):
        yield (f"{self.device.busid} {self.device.name}, a visit of {self.peer}: {counted(len(self.runs), 'run')}, "
               f"{self.microframes} microframes")
        if self.asked:
            yield "asked: " + ", ".join(f"{name} {count}" for name, count in sorted(self.asked.items()))
        for target, count in self.set.items():
            back = {True: ", read back after that", False: ", not read back after that"}.get(self.read_back.get(target), "")
            yield f"set: {target}, {counted(count, 'time')}{back}"
        for (what, rule), count in self.stalls.items():
            yield f"stalled: {what} by {rule}, {counted(count, 'time')}"
        for stream in streams:
            yield from self.stream_lines(stream)
        for remark in self.remarks:
            yield f"remark: {remark}"
        for number, report in enumerate(self.runs, 1):
            yield f"the program's report of run {number}:"
            yield from (f"  {line}" for line in report)
