"""A device probed: its descriptors read, everything asked, all set again as it was, the device given back, and the verdict of the judge."""
import json, os, signal, subprocess
from controls import service_of
from descriptor import cut, is_whole
from dialogue import Dialogue, Hangs
from differences import Differences
from enumeration import Enumeration, setup_of
from harmless import Keeper
from judging import kinds_of, status_of, verdict_of
from kept import read_script
from outcome import Gone
from own_streams import OwnStreams
from proved import Proved
from questions import Questions
from sysfs import has_audio, interfaces_of
from tool import TOP, Refused, program

SET_CONFIGURATION = b"\0\x09"
# Where the judge has no rules of a device's speed, those of high speed judge it.
SPEEDS = {"high": "high", "full": "full", "super": "high"}


class Interrupted(Exception):
    """Ctrl-C, or that the tool is to end."""


class Noting(Proved):
    """The program, with what it answered to each request last."""

    def __init__(self, descriptor):
        self.answers = {}
        super().__init__(descriptor)

    def ask(self, setup, sent=b""):
        self.answers[setup, sent] = answer = super().ask(setup, sent)
        return answer


def on_signals(what):
    """What Ctrl-C and the signals to end do from now on; what they did before."""
    return {one: signal.signal(one, what) for one in (signal.SIGINT, signal.SIGTERM, signal.SIGHUP)}


def as_before(before):
    """Signals do what they did before."""
    for one, what in before.items():
        signal.signal(one, what)


def interrupt(*_):
    """The first signal ends the questions; those after it don't disturb what is set again and given back."""
    on_signals(signal.SIG_IGN)
    raise Interrupted("it was ended by Ctrl-C or by a signal, so the rest wasn't asked")


def explained(descriptors, speed):
    """What tools/explain says of the descriptor, as its object."""
    done = subprocess.run([os.path.join(TOP, "tools/explain"), "--json", "-"], input=descriptors, stdout=subprocess.PIPE,
                          stderr=subprocess.PIPE, env={**os.environ, "UAC_CLI": program()})
    try:
        return json.loads(done.stdout)
    except ValueError:
        raise Refused(f"tools/explain doesn't explain this descriptor: {done.stderr.decode(errors='replace').strip()}")


def read_descriptors(way):
    """The device descriptor and the first configuration, whole. A device that doesn't tell them can't be asked at all."""
    device, front = (way.control(setup_of(kind, 0, length)) for kind, length in ((1, 18), (2, 9)))
    for what, said in (("device", device), ("configuration", front)):
        if said.kind != "bytes" or len(said.data) < (18 if what == "device" else 9):
            raise Refused(f"{way.name} doesn't tell its {what} descriptor: it said {said.said()}. Unplug it and plug it in again")
    total = int.from_bytes(front.data[2:4], "little")
    whole = way.control(setup_of(2, 0, total))
    if whole.kind != "bytes" or len(whole.data) != total:
        raise Refused(f"{way.name} doesn't tell its configuration descriptor whole: of {total} bytes it said {whole.said():.60}")
    return device.data, whole.data


def messages_of(blocks):
    """The interrupt endpoint of the control interface: its address, its bytes and its interval; None where there is none."""
    owner = False
    for block in blocks:
        if block.kind in ("interface", "association"):
            owner = block.kind == "interface" and (block["class"], block["subclass"], block["protocol"]) == (1, 1, 0x20)
        elif owner and block.kind == "endpoint" and is_whole(block) and block["attributes"] & 3 == 3 and block["address"] & 0x80:
            return block["address"], block["max_packet"] & 0x7FF, service_of(block)
    return None


class Probe:
    """Asks a device by a way to it. What came of it: the dialogue, the verdict, notes, and what couldn't be given back."""

    def __init__(self, way, options, say):
        self.way, self.options, self.say = way, options, say
        self.notes, self.troubles, self.why, self.own, self.verdict, self.dialogue = [], [], None, [], None, None

    # ---- the whole of it

    def run(self):
        """Asks everything; the device is given back whatever happens."""
        before = on_signals(interrupt)
        try:
            self.read()
            self.way.begin(interfaces_of(self.configuration))
            self.ask()
        except (Hangs, Gone, Interrupted) as why:
            self.why = str(why)
            if self.dialogue is None or not any(one.is_judged and one.outcome.is_answer for one in self.dialogue.asked):
                raise Refused(self.why)
        finally:
            on_signals(signal.SIG_IGN)
            self.troubles += self.way.end()
            for trouble in self.troubles:
                self.say(trouble)
            as_before(before)
        self.judge()

    def read(self):
        """The descriptors, and what check and tools/explain say of them."""
        self.device, self.configuration = read_descriptors(self.way)
        self.take_descriptors()

    def take_descriptors(self):
        self.blocks = cut(self.configuration)[0]
        if not has_audio(self.configuration):
            raise Refused(f"{self.way.name} has no audio function of version 2.0 in its first configuration")
        self.explained = explained(self.device + self.configuration, self.way.speed)
        self.speed = SPEEDS.get(self.way.speed, "high")
        if self.way.speed not in ("high", "full"):
            self.notes.append(f"the device runs at {self.way.speed} speed: the rules of high speed judge it")
        at = "" if self.speed == "high" else ", full speed"
        head = [f"bus 0, device 0, {len(self.configuration)} bytes of configuration{at}", f"{self.way.name}, asked by tools/probe"]
        self.dialogue = Dialogue(self.way, self.configuration, self.blocks, head)
        self.keeper = Keeper(self.options.is_loud, self.options.is_read_only)
        self.questions = Questions(self.dialogue, self.keeper, self.blocks)

    def ask(self):
        """All questions, and everything as it was again: after a failure, too, where the device still answers."""
        try:
            self.choose_configuration()
            self.enumeration = Enumeration(self.dialogue, self.own)
            self.enumeration.read(self.device_block(), self.blocks, len(self.configuration))
            endpoint = messages_of(self.blocks)
            if endpoint is not None:
                self.way.listen(*endpoint)
            self.questions.ask_all()
            if self.options.seconds:
                streams = OwnStreams(self.questions, self.configuration, self.speed, self.options.seconds)
                streams.ask_all()
                self.notes += streams.notes
        except (Hangs, Gone):
            raise
        except BaseException:
            self.restore()
            raise
        self.restore()

    def restore(self):
        """Sets everything as it was, whatever signals come meanwhile; what couldn't be is told."""
        before = on_signals(signal.SIG_IGN)
        try:
            self.questions.restore()
        except (Hangs, Gone) as why:
            self.why = self.why or str(why)
        finally:
            as_before(before)

    def device_block(self):
        return next((block for block in cut(self.device)[0] if block.kind == "device"), None)

    def choose_configuration(self):
        """The first configuration is chosen where none is: without it no request of the class is answered."""
        if self.way.is_configured:
            return
        now = self.way.control(bytes.fromhex("8008000000000100"))
        if now.kind != "bytes" or now.data != self.configuration[5:6]:
            self.dialogue.other("enumeration", SET_CONFIGURATION + self.configuration[5:6] + bytes(5), "SET_CONFIGURATION")

    # ---- the verdict

    def judge(self):
        """The judge's verdict on the dialogue, with the program's answer beside each request, and what is wrong of enumeration."""
        script = read_script("the dialogue", self.dialogue.text().encode(), "")
        by_line, proved = {one.line: one for one in self.dialogue.asked}, Noting(self.configuration)

        def beside(kept):
            answer = proved.answers.pop((kept.setup, kept.sent), None)
            if answer is None and proved.refusal is None and kept.setup[0] & 0x80:
                answer = proved.ask(kept.setup)
            if kept.line in by_line:
                by_line[kept.line].program = answer
        self.verdict, self.refusal = verdict_of(script, self.speed, proved, beside)
        kept = list(self.verdict.differences.found.values())
        self.verdict.differences = Differences()
        for one in [*self.own, *kept]:
            self.verdict.differences.add(one)
        self.script = script

    @property
    def not_as_it_was(self):
        """The controls that couldn't be set again, by name."""
        names = [target for _, target in self.keeper.not_restored]
        return names + [point.target for point in self.keeper.changed() if point.target not in names and point.is_settable]

    @property
    def is_refused_by_standard(self):
        return any(one["kind"] == "standard" for one in self.explained["findings"])

    @property
    def status(self):
        """The judge's, where everything was asked and given back; 2 where something stands in the way and nothing is wrong."""
        status = 1 if self.is_refused_by_standard else status_of(self.verdict, self.options.is_profile)
        is_in_trouble = self.why is not None or self.troubles or self.not_as_it_was
        return 2 if is_in_trouble and status != 1 else status

    @property
    def kinds(self):
        return kinds_of(self.options.is_profile)
