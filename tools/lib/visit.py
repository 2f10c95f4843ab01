"""A host's visit: from the import of a device to its end, over one connection, with a run of the program behind it."""
import collections, select, time
from bus import LONGEST_END, MICROFRAMES, TURN, Bus
from device import GET_INTERFACE, SET_CONFIGURATION, SET_INTERFACE
from host_pace import HostPace
from program import Program, Stopped, lines_of_descriptor
from recording import Recording
from usbip import DONE, ENDED, NO_ANSWER, NO_ENDPOINT, STALLED, WRONG, ProtocolError, Transfer, answer_of, read_command, unlinked
from visit_report import Account

# What a host may have waiting at once, and the bytes of one request that fit a line.
MOST_WAITING, MOST_SENT = 4096, 2000
# What is left of a run's input for its end: the report, and each element read.
ROOM_OF_END, ROOM_OF_ELEMENT = 4096, 64


class Visit:
    """One import. `options` has what the words of the command say; `kept` the lines of clocks and jacks that were said before."""

    def __init__(self, device, wire, peer, options, kept, say):
        self.device, self.wire, self.options, self.say = device, wire, options, say
        self.account = Account(device, peer, say)
        self.recording = Recording(options.out, f"{device.busid}-{device.name}", say)
        self.bus = Bus(self.recording, self.send, options.cushion, options.losses, lambda form, nominal: HostPace(form.period, nominal),
                       device.count_out_jacks() == 1)
        self.kept, self.console, self.broken, self.is_asked_to_end = dict(kept), collections.deque(), None, False
        self.controls, self.idle, self.settings, self.is_configured = collections.deque(), [], {}, False
        self.began, self.answers, self.program = None, [], None

    # ---- runs of the program

    def begin_run(self):
        """A program, its device, and all that was said of clocks and jacks."""
        self.recording.begin_run()
        self.program = Program(self.device.control, self.recording.said, self.recording.heard)
        self.program.say(lines_of_descriptor(self.device.data))
        told = self.program.ask("g")
        if not told.startswith("ready "):
            raise Stopped(f"the program says '{told}' of the descriptor")
        self.program.say("v 2\n")
        for line in self.kept.values():
            self.program.say(line + "\n")

    def begin(self):
        self.recording.bus(f"# {self.device.busid}, {self.device.name}\n" + lines_of_descriptor(self.device.configuration) + "g\n")
        self.begin_run()
        self.comment(f"a visit of {self.account.peer} to {self.device.busid}, {self.device.name}")

    def comment(self, text):
        self.program.say(f"# {text}\n")

    def leave_room(self, count):
        """Begins a fresh run where so many bytes more wouldn't leave room for the end of this one."""
        end = ROOM_OF_END + ROOM_OF_ELEMENT * len(self.device.elements)
        if self.program.bytes + count + end > self.options.limit:
            self.renew()
            if self.program.bytes + count + end > self.options.limit:
                raise Stopped(f"a run of at most {self.options.limit} bytes has no room for this device")

    def renew(self):
        """Ends the run with a report, and begins a fresh one: controls, clocks, jacks, and the streams that run."""
        values = {name: int(self.program.ask(f"h get {name}").rpartition(" ")[2]) for name in self.device.elements}
        self.end_run()
        self.begin_run()
        self.say(f"run {self.recording.runs} begins, since the one before has nearly all the bytes that it may have")
        missing = self.set_again({name: value for name, value in values.items()
                                  if self.device.elements[name][0] and value != self.device.elements[name][1]})
        for name in missing:
            self.account.remark(f"{name} couldn't be set again in run {self.recording.runs}")
        rates = self.rates()
        for interface, stream in self.bus.streams.items():
            told = self.program.ask(f"c 010b{stream.form.setting:02x}00{interface:02x}000000")
            if told != "c done":
                raise Stopped(f"the program answers '{told}' where stream {interface} is to go on")
        self.bus.begin_run(rates)

    def set_again(self, values):
        """Sets elements; one that is stalled, as a clock may be, is tried again after the others. Those that can't be set."""
        while values:
            left = {name: value for name, value in values.items() if self.program.ask(f"h set {name} {value}") != "h done"}
            if len(left) == len(values):
                break
            values = left
        return values

    def rates(self):
        """The rate of each domain now."""
        words = [line.split(" ") for line in self.program.report() if line.startswith("domain ")]
        return {int(word[1]): int(word[3]) for word in words if word[3].isdigit()}

    def end_run(self):
        self.account.runs.append(self.program.report())
        status = self.program.end()
        if status != 0:
            self.account.remark(f"run {self.recording.runs} ended with status {status}")

    # ---- the host's messages

    def send(self, data):
        self.answers.append(data)

    def flush(self):
        if self.answers:
            data, self.answers = b"".join(self.answers), []
            self.wire.send(data)

    def take_messages(self):
        while (message := read_command(self.wire)) is not None:
            if isinstance(message, Transfer):
                self.take(message)
            else:
                self.take_back(*message)

    def take(self, one):
        """A transfer: it waits until it is its turn, or is refused at once."""
        pipe = None if one.endpoint == 0 else self.bus.pipe(one.address)
        status = self.refusal_of(one, pipe)
        if status is not None:
            self.account.remark(f"a transfer of endpoint {one.address:#04x} was refused: " +
                                ("it is isochronous" if status == WRONG else "no setting that runs has it"))
            self.refuse(one, status)
            return
        waiting = self.controls if one.endpoint == 0 else self.idle
        if pipe is not None:
            waiting, pipe.last = pipe.transfers, time.monotonic()
        if waiting is self.idle:
            self.account.remark(f"endpoint {one.address:#04x} isn't of a stream: its transfers wait and are never answered")
        if len(waiting) >= MOST_WAITING:
            raise ProtocolError(f"it handed in more than {MOST_WAITING} transfers of endpoint {one.address:#04x} at once")
        waiting.append(one)

    def refusal_of(self, one, pipe):
        """The state with which a transfer is refused; None where it may wait."""
        if one.endpoint == 0:
            return None
        if pipe is not None:
            return WRONG if one.packets is None else None
        may_wait = one.packets is None and one.address in self.device.endpoints and one.address not in self.device.of_streams
        return None if may_wait else NO_ENDPOINT

    def refuse(self, one, status):
        one.fail(status)
        self.send(answer_of(one, status))

    def take_back(self, number, target):
        """The host takes a transfer back, unless it was answered already."""
        places = [self.controls, self.idle] + [pipe.transfers for stream in self.bus.streams.values() for pipe in stream.pipes]
        for waiting in places:
            for one in waiting:
                if one.number == target:
                    waiting.remove(one)
                    self.send(unlinked(number, True))
                    return
        self.send(unlinked(number, False))

    # ---- control transfers

    def do_controls(self):
        """Control transfers, one after the other. One that ends a stream waits until all that the host sent was played."""
        while self.controls and self.may_go_on(self.controls[0]):
            one = self.controls.popleft()
            self.leave_room(2 * min(len(one.data), MOST_SENT) + 200)
            status, data = self.control(one.setup, one.data)
            self.send(answer_of(one, status, data))

    def may_go_on(self, one):
        kind, value, index = (one.setup[0], one.setup[1]), one.setup[2] | one.setup[3] << 8, one.setup[4] | one.setup[5] << 8
        if kind == SET_CONFIGURATION:
            ending = list(self.bus.streams.values())
        elif kind == SET_INTERFACE and (value == 0 or (index, value) in self.device.formats) and one.setup[6:] == b"\0\0":
            ending = [stream for number, stream in self.bus.streams.items() if number == index]
        else:
            return True
        return self.close(ending)

    def close(self, streams):
        """Has the ends of these streams played; whether that is done."""
        is_done = True
        for stream in streams:
            if stream.form.is_out and not stream.is_played():
                if not stream.is_closing:
                    stream.is_closing, stream.closed = True, self.bus.passed
                is_done = is_done and self.bus.passed - stream.closed > LONGEST_END
        return is_done

    def control(self, setup, sent):
        """What a control transfer is answered: a status, and bytes."""
        if self.device.is_for_program(setup):
            return self.ask_program(setup, sent)
        found, what = self.device.enumerate(setup, self.is_configured)
        if found is None:
            self.account.remark(f"stalled a {what}")
        said = "stall" if found is None else f"bytes {found[:512].hex() or '-'}" if setup[0] & 0x80 else "done"
        self.comment(f"{setup.hex()}{' ' + sent[:64].hex() if sent else ''}: a {what}, answered by the server; said {said}")
        self.recording.bus(f"# {setup.hex()}: not of the audio function; said {said}\n")
        if (setup[0], setup[1]) == SET_CONFIGURATION and found is not None:
            self.is_configured = setup[2] != 0
            for interface in self.device.streaming:
                self.ask_program(bytes([1, 11, 0, 0, interface, 0, 0, 0]), b"", is_told=False)
        return (STALLED, b"") if found is None else (DONE, found)

    def ask_program(self, setup, sent, is_told=True):
        if self.broken is not None:
            self.program.say(self.broken + "\n")
            self.broken = None
        answer = self.program.ask(f"c {setup.hex()}" + (f" {sent[:MOST_SENT].hex()}" if sent else ""))
        words = answer.split(" ")
        if len(words) < 2 or words[0] != "c":
            raise Stopped(f"the program answers '{answer}' to a transfer")
        if is_told:
            self.account.request(setup, sent, answer)
            said = f"nothing, and the transfer ended with {NO_ANSWER}" if words[1] == "broken" else answer[2:].partition(" Q")[0]
            self.recording.bus(f"c {setup.hex()}{' ' + sent[:MOST_SENT].hex() if sent else ''}\n# said {said}\n")
        if (setup[0], setup[1]) == SET_INTERFACE:
            self.follow_interface(setup, words[1])
        self.look_at_ways()
        if words[1] == "bytes":
            return DONE, b"" if words[2] == "-" else bytes.fromhex(words[2])
        return {"done": DONE, "stall": STALLED}.get(words[1], NO_ANSWER), b""

    def follow_interface(self, setup, word):
        """Streams begin and end as the device has them."""
        interface, setting = setup[4], setup[2]
        if word == "stall":
            if interface in self.bus.streams:
                self.bus.streams[interface].is_closing = False
            return
        if word == "broken":
            kind, number = GET_INTERFACE
            now = self.program.ask(f"c {kind:02x}{number:02x}0000{interface:02x}000100")
            if int(now.rpartition(" ")[2], 16) == self.settings.get(interface, 0) != setting:
                return
        self.settings[interface] = setting
        was = self.bus.streams.get(interface)
        for one in self.bus.stop(interface):
            self.refuse(one, ENDED)
        if was is not None:
            self.say(f"stream {interface} ended: {was.packets} packets, {was.frames} frames")
        form = self.device.formats.get((interface, setting))
        if form is None:
            return
        ways = self.device.plain_ways(form.terminal) if form.is_out else {}
        jack = next(iter(ways), None)
        stream = self.bus.start(form, self.rates()[form.clock], time.monotonic(), jack)
        stream.features = ways.get(jack, [])
        self.say(f"stream {interface} runs at {stream.rate} Hz, setting {setting}, {form.in_words()}")

    def look_at_ways(self):
        """Whether the frames of each stream come out of its jack as they are."""
        for stream in self.bus.streams.values():
            if stream.form.is_out:
                stream.is_plain = self.account.is_plain(stream.features)

    # ---- time

    def step(self):
        """Microframes, as far as the host's transfers and the pace allow; whether there were any."""
        if not self.bus.streams or not self.bus.is_waiting() and not self.bus.is_closing():
            self.began = None
            return False
        most, now = TURN, time.monotonic()
        if self.options.pace and self.bus.is_waiting():
            if self.began is None:
                self.began = now - self.bus.passed / self.options.pace
            most = min(most, int((now - self.began) * self.options.pace) - self.bus.passed)
        if most <= 0:
            return False
        self.leave_room(self.bus.bytes_of_turn())
        done = self.bus.turn(self.program, most)
        if done == 0:
            # The host is late: there is no hurry afterwards.
            self.began = None
        return done > 0

    def run(self):
        """Until the host goes, breaks the protocol, or is asked to go: why, as a sentence."""
        try:
            while not self.is_asked_to_end:
                self.do_console()
                self.take_messages()
                self.do_controls()
                is_on = self.step()
                self.flush()
                wait = 0 if is_on else 8 / MICROFRAMES if self.bus.streams else 0.05
                if select.select([self.wire], [], [], wait)[0]:
                    self.wire.receive()
            return "the server ends"
        except ProtocolError as why:
            return str(why)

    def end(self, why):
        """Plays what the host sent, ends the run, and tells what came of it."""
        self.answers = []
        for interface, stream in list(self.bus.streams.items()):
            for pipe in stream.pipes:
                pipe.transfers.clear()
            if stream.form.is_out:
                stream.is_closing, stream.closed = True, self.bus.passed
            else:
                self.bus.stop(interface)
        while not self.close(self.bus.streams.values()):
            self.leave_room(self.bus.bytes_of_turn())
            if not self.bus.turn(self.program, TURN):
                break
        for interface in list(self.bus.streams):
            self.bus.stop(interface)
        self.comment("the end of the visit")
        self.end_run()
        return self.report(why)

    def report(self, why):
        """What came of the visit, kept and as it is told."""
        self.account.microframes = self.bus.passed
        text = "".join(line + "\n" for line in [*self.account.lines(self.bus.ended), f"the end: {why}"])
        self.recording.report(text)
        return f"detached: {why}\n" + "".join(f"  {line}\n" for line in text.splitlines()[:-1]).rstrip("\n")

    def give_up(self, why):
        """The program is gone: what is known is told."""
        if self.program is not None:
            self.program.stop()
        for interface in list(self.bus.streams):
            self.bus.stop(interface)
        return self.report(why)

    # ---- lines of standard input

    def do_console(self):
        while self.console:
            line = self.console.popleft()
            self.leave_room(len(line) + 100)
            if line[0] in "kj":
                self.kept[tuple(line.split(" ")[:2])] = line
            if line[0] == "b":
                self.broken = line
                continue
            if line[0] != "h":
                self.program.say(line + "\n")
                continue
            if self.broken is not None and not line.startswith("h show"):
                self.program.say(self.broken + "\n")
                self.broken = None
            told = self.program.ask(line)
            self.say(told)
            self.follow_element(line.split(" "), told)

    def follow_element(self, words, told):
        if words[1] == "set" and told in ("h done", "h broken"):
            self.account.values[words[2]] = int(words[3]) if told == "h done" else None
            self.look_at_ways()
