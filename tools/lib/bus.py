"""The bus before a host: the streams that run, and their microframes, several a turn where the host's transfers allow it."""
import time
from flow import InStream, OutStream, bytes_of
from program import LONGEST_LINE, Stopped
from usbip import DONE, NO_ANSWER, TOO_MUCH, answer_of

MICROFRAMES = 8000
# The most microframes of a turn, how long an endpoint's transfers are waited for while others go on, and from when on a host that has
# handed in nothing is taken to pause, and not to be late.
TURN, PATIENCE, PAUSE = 64, 0.5, 0.125
# So many microframes the end of a stream is played at most: a ring is primed and empty long before.
LONGEST_END = 16000
# A packet or report that nobody sent, asked for or got, as tools/script_of has it.
LOST = "- lost -"
# How the lines begin that stand behind the ticks of a microframe.
AFTER_TICKS = ("", "l", "f")


def nominal_of(rate):
    """What the device says where a stream is at home: 65,536ths of a frame in a microframe."""
    return rate * 65536 // MICROFRAMES


def spell_samples(interface, frames, silence, channels):
    """The lines that put frames onto a track."""
    most = max(1, (LONGEST_LINE - 8) // (12 * channels))
    pieces = (frames[at:at + most] for at in range(0, len(frames), most))
    return "".join(f"a {interface} {' '.join([frame or silence for frame in piece])}\n" for piece in pieces)


def spell_microframes(marks):
    """Lines of microframes with these losses, those with the same in one line."""
    text, at = "", 0
    while at < len(marks):
        end = at + 1
        while end < len(marks) and marks[end] == marks[at]:
            end += 1
        text += " ".join([f"m {end - at}", *sorted(marks[at])]) + "\n"
        at = end
    return text


class Bus:
    """The streams of one import. `judge_of` makes the judge of a stream's packets; `answer` is handed what goes back to the host."""

    def __init__(self, recording, answer, cushion, losses, judge_of, has_one_jack):
        self.recording, self.answer, self.cushion, self.losses, self.judge_of = recording, answer, cushion, losses, judge_of
        self.numbered, self.streams, self.ended, self.listening, self.time, self.before, self.told = {}, {}, [], {}, 0, 0, []
        # Whether only one jack plays, so that each line of a jack is one of its.
        self.has_one_jack = has_one_jack

    # ---- streams

    def start(self, form, rate, now, jack):
        """A stream begins in the program, and here."""
        if form.is_out:
            stream = OutStream(form, nominal_of(rate), self.cushion, now, jack)
            stream.judge = self.judge_of(form, nominal_of(rate))
            if jack is not None:
                self.listening[f"p {jack} "] = stream
        else:
            stream = InStream(form, now)
        stream.rate, stream.due_reports, stream.began, stream.ended = rate, 0, self.passed, None
        self.streams[form.interface] = stream
        self.number_streams()
        return stream

    def stop(self, interface):
        """A stream ends; the transfers that nobody took."""
        stream = self.streams.pop(interface, None)
        if stream is None:
            return []
        stream.ended = self.passed
        self.ended.append(stream)
        self.number_streams()
        self.listening = {jack: one for jack, one in self.listening.items() if one is not stream}
        return [one for pipe in stream.pipes for one in pipe.transfers]

    def number_streams(self):
        """The streams by their interfaces, and by how lines name these."""
        self.streams = dict(sorted(self.streams.items()))
        self.numbered = {str(interface): stream for interface, stream in self.streams.items()}

    def pipe(self, address):
        """The endpoint of a running stream, None where none has this address."""
        return next((pipe for stream in self.streams.values() if not stream.is_closing for pipe in stream.pipes if pipe.address == address),
                    None)

    @property
    def passed(self):
        """The microframes of all runs."""
        return self.before + self.time

    def is_waiting(self):
        """Whether the host handed in something for a stream that runs."""
        return any(pipe.transfers for stream in self.streams.values() for pipe in stream.pipes)

    def is_closing(self):
        return any(stream.is_closing for stream in self.streams.values())

    def bytes_of_turn(self):
        """More bytes than the lines of a turn have."""
        return TURN * 80 + 200 + sum((stream.bound(TURN) + 8) * (12 * stream.form.channels + 2) for stream in self.streams.values()
                                     if stream.form.is_out)

    def begin_run(self, rates):
        """The program begins anew: so does each stream."""
        self.before, self.time = self.before + self.time, 0
        for stream in self.streams.values():
            stream.rate = rates[stream.form.clock]
            stream.restart(nominal_of(stream.rate))

    # ---- a turn

    def turn(self, program, most):
        """As many microframes as the host's transfers allow; how many that were."""
        now = time.monotonic()
        asleep = self.asleep(now)
        for stream in self.streams.values():
            if stream.form.is_out and not stream.data.transfers and now - stream.data.last >= PAUSE:
                stream.judge.pause()
        count = self.reach(most, asleep)
        if count:
            parts = ("\n" + program.turn(self.text_of(count, asleep))).split("\nu ")[1:]
            if len(parts) != count:
                raise Stopped(f"the program printed {len(parts)} microframes, and {count} were asked for")
            now = time.monotonic()
            for stream in self.streams.values():
                stream.data.answered = 0
            for part in parts:
                self.microframe(part, now)
            told, self.told = "".join(self.told), []
            self.recording.bus(told)
        return count

    def asleep(self, now):
        """The endpoints that the host has left alone for a while, where something else goes on."""
        if not self.is_waiting() and not self.is_closing():
            return set()
        return {pipe for stream in self.streams.values() for pipe in stream.pipes
                if not pipe.transfers and now - pipe.last >= PATIENCE}

    def reach(self, most, asleep):
        """How many of so many microframes can be done: as far as the packets reach that the host handed in, and as a track needs it."""
        for stream in self.streams.values():
            if stream.form.is_out:
                until_report = stream.feedback.until_due(stream.age)
                most = min(most, stream.clear_for(most, until_report), until_report if stream.data in asleep else most)
            if not stream.is_closing:
                for pipe in stream.pipes:
                    if pipe not in asleep:
                        most = min(most, pipe.reach(stream.age, most))
        return most

    def text_of(self, count, asleep):
        """The lines of so many microframes, before them the frames that come onto tracks."""
        marks, text = [set() for _ in range(count)], ""
        for interface, stream in self.streams.items():
            if not stream.is_closing:
                self.mark_losses(stream, marks, asleep)
            if stream.form.is_out:
                if not stream.is_closing:
                    self.push(stream, stream.data.count_due(stream.age, count), stream.data in asleep)
                frames, lost = stream.feed(count)
                text += spell_samples(interface, frames, stream.silence, stream.form.channels)
                for at in lost:
                    marks[at - 1].add(f"o{interface}")
        return text + spell_microframes(marks)

    def mark_losses(self, stream, marks, asleep):
        """Marks the packets and reports that nobody asks for, and the reports that are to be lost."""
        letter, pipe = ("f", stream.feedback) if stream.form.is_out else ("i", stream.data)
        is_asleep = pipe in asleep
        if not is_asleep and (letter == "i" or self.losses is None):
            return
        for at in range(pipe.until_due(stream.age), len(marks) + 1, pipe.period):
            if is_asleep or self.is_lost(stream):
                marks[at - 1].add(f"{letter}{stream.form.interface}")

    def push(self, stream, count, is_asleep):
        """The host's next packets wait from now on, or that it skipped so many."""
        if is_asleep:
            for _ in range(count):
                stream.skip_packet()
            return
        for one in stream.data.transfers:
            more = min(count, len(one.packets) - one.at)
            stream.take_packets(one, more)
            count -= more
            if not count:
                break

    def is_lost(self, stream):
        """Whether the stream's next report is to be lost."""
        stream.due_reports += 1
        return (stream.due_reports - 1) % self.losses[1] < self.losses[0]

    # ---- what the program printed

    def microframe(self, part, now):
        """The lines of one microframe: packets to the device, packets from it with their frames, ticks, levels, and reports."""
        self.time += 1
        lines = part.split("\n")
        at, end = 1, len(lines)
        while lines[end - 1][:1] in AFTER_TICKS:
            end -= 1
        for stream in self.streams.values():
            stream.begin_microframe()
        while at < end:
            line = lines[at]
            at += 1
            if line[0] == "p":
                # Where a ring ran empty or over, that stands among the ticks, and each is taken by itself.
                whole = "\nunder " not in part and "\nover " not in part
                self.take_ticks(lines[at - 1:end] if whole else [line])
                at = end if whole else at
            elif line[0] == "i":
                _, interface, count, word = line.split(" ")
                frames = int(count) if word == "ok" else 0
                stream = self.numbered.get(interface)
                if stream is not None:
                    stream.heard = lines[at:at + frames]
                at += frames
            else:
                self.take_line(line.split(" "))
        for line in lines[end:]:
            if line:
                self.take_line(line.split(" "))
        self.finish(now)

    def take_ticks(self, lines):
        """The frames of jacks that came out."""
        for front, stream in self.listening.items():
            stream.take_ticks(front, lines if self.has_one_jack else [line for line in lines if line.startswith(front)])

    def take_line(self, words):
        """A line on a packet to the device, a level, a report, or a ring that ran empty or over."""
        stream = self.numbered.get(words[1])
        if stream is None:
            return
        if words[0] == "o":
            stream.form_packet(int(words[2]), words[3])
        elif words[0] == "l":
            stream.settle(int(words[2]), words[3])
        elif words[0] == "f":
            stream.reported = int(words[2], 16) if words[3] == "ok" else None
            if stream.is_closing:
                stream.value = stream.reported
        elif words[0] == "under":
            stream.run_dry()

    def finish(self, now):
        """What packets and reports came to in this microframe, where they were due; kept in words, as tools/script_of has them."""
        events = []
        for interface, stream in self.numbered.items():
            if stream.is_closing:
                continue
            age, pipe = stream.age, stream.data
            if age % pipe.period == 0:
                one = pipe.transfers[0] if pipe.transfers else None
                events.append(f"o {interface} {self.finish_out(stream, one)}" if stream.form.is_out
                              else f"i {interface} {self.finish_in(stream, one)}")
                if one is not None and one.at == len(one.packets):
                    self.complete(pipe, now)
            pipe = stream.feedback
            if pipe is not None and age % pipe.period == 0:
                one = pipe.transfers[0] if pipe.transfers else None
                events.append(f"f {interface} {self.finish_report(stream, one, stream.reported)}")
                if one is not None and one.at == len(one.packets):
                    self.complete(pipe, now)
        if events:
            self.told.append(f"# bus {self.before + self.time}: {', '.join(events)}\n")

    def complete(self, pipe, now):
        """The first transfer of an endpoint goes back to the host."""
        one = pipe.transfers.popleft()
        pipe.last = now
        pipe.answered += len(one.packets)
        self.answer(answer_of(one, DONE))

    def finish_out(self, stream, one):
        if one is None:
            # A packet that was skipped counts as what would have been sent.
            stream.measure(stream.formed_last)
            return LOST
        length = one.packets[one.at][1]
        frames = length // stream.form.frame
        one.at += 1
        stream.measure(frames)
        stream.judge.packet(frames)
        return f"{frames} ok {length}"

    def finish_in(self, stream, one):
        lines = stream.heard
        if one is None:
            stream.lost += 1
            return LOST
        samples = " ".join(lines).replace(f"r {stream.form.interface} ", "").split()
        data = bytes_of(map(int, samples), stream.form.subslot)
        room = one.packets[one.at][1]
        stream.packets += 1
        stream.frames += len(lines)
        stream.cut += len(data) > room
        one.end_packet(data[:room], TOO_MUCH if len(data) > room else DONE)
        return f"{len(lines)} ok {len(data)}"

    def finish_report(self, stream, one, value):
        if one is None:
            stream.reports_unasked += 1
            return LOST
        if value is None:
            stream.reports_lost += 1
            one.end_packet(status=NO_ANSWER)
            return LOST
        data = value.to_bytes(4, "little")[:one.packets[one.at][1]]
        one.end_packet(data)
        ahead = sum(len(waits.packets) - waits.at for waits in stream.data.transfers) + stream.data.answered
        stream.hear_report(value)
        stream.judge.report(value, ahead)
        return f"{value:08x} ok {data.hex() or '-'}"
