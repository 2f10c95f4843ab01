"""A device of a USB/IP server as one that is asked: control transfers with a limit of time, interrupt messages, isochronous packets."""
import collections, re, select, time
from outcome import Gone, Outcome, outcome_of
from tool import Refused
from usbip import PORT, Host, ProtocolError

# How long the server may take to connect, and to say that it took a transfer back; so long one that was just started may take to listen.
CONNECT, TAKING_BACK, STARTING, AGAIN = 10, 2, 5, 0.1
SPEEDS = {1: "low", 2: "full", 3: "high", 5: "super", 6: "super"}
FORM = re.compile(r"usbip:(?P<host>\[[^\]]+\]|[^:/\[]+)(?::(?P<port>[0-9]{1,5}))?(?:/(?P<busid>[0-9]+-[0-9.]+))?")
WANTED = "usbip:HOST[:PORT]/BUSID is wanted, as usbip:127.0.0.1/1-1"


def place_of(text):
    """The address, port and bus id (None where none is given) of 'usbip:HOST[:PORT]/BUSID'."""
    found = FORM.fullmatch(text)
    if found is None or found["port"] is not None and not 0 < int(found["port"]) <= 65535:
        raise Refused(f"'{text}' names no device: {WANTED}")
    return found["host"].strip("[]"), int(found["port"] or PORT), found["busid"]


def connected(text):
    """A connection to the server that this names, and the bus id. One that doesn't listen yet is tried again for some seconds."""
    address, port, busid = place_of(text)
    end = time.monotonic() + STARTING
    while True:
        try:
            return Host(address, port, CONNECT), busid
        except ProtocolError as why:
            if not isinstance(why.__cause__, ConnectionRefusedError) or time.monotonic() >= end:
                raise Refused(f"{why}: is a USB/IP server there? 'tools/serve examples/headset.bin' is one")
        time.sleep(AGAIN)


def list_of(text):
    """The devices of a server that have an audio function of version 2.0, a line each."""
    host, _ = connected(text)
    try:
        for record in host.devices():
            if (1, 1, 0x20) in record.interfaces:
                yield f"{text.partition('/')[0]}/{record.busid} {record.vendor:04x}:{record.product:04x}"
    except ProtocolError as why:
        raise Refused(str(why))
    finally:
        host.close()


class OverUsbip:
    """A device that is attached for as long as it is asked. `limit` is how many seconds a request may take."""
    is_configured = False

    def __init__(self, text, limit):
        self.host, busid = connected(text)
        if busid is None:
            self.host.close()
            raise Refused(f"'{text}' names no device: {WANTED}; 'tools/probe --list {text}' names those that are there")
        self.limit, self.name, self.messages, self.waiting = limit, busid, [], collections.deque()
        self.listening = None
        try:
            self.speed = SPEEDS.get(self.host.attach(busid).speed, "unknown")
        except ProtocolError as why:
            self.host.close()
            raise Refused(f"{why}; 'tools/probe --list {text.partition('/')[0]}' names those that are there")

    def begin(self, interfaces):
        """Nothing is to be taken from a driver here."""

    def next(self, end):
        """The next answer, None where none comes until this time."""
        try:
            if not self.host.wire.left and not select.select([self.host.wire], [], [], max(0, end - time.monotonic()))[0]:
                return None
            return self.host.receive()
        except ProtocolError as why:
            raise Gone(f"the device went away: {why}")

    def submit(self, *words, **more):
        try:
            return self.host.submit(*words, **more)
        except ProtocolError as why:
            raise Gone(f"the device went away: {why}")

    def control(self, setup, sent=b""):
        """What a control transfer is answered."""
        is_in = bool(setup[0] & 0x80)
        number = self.submit(setup[0] & 0x80, sent, None, setup, int.from_bytes(setup[6:8], "little"))
        end = time.monotonic() + self.limit
        while (answer := self.next(end)) is not None:
            if answer.number == number:
                return outcome_of(answer.status, is_in, answer.data, answer.passed, self.limit)
            self.keep(answer)
        self.take_back(number)
        return Outcome("silent", seconds=self.limit)

    def take_back(self, number):
        """Takes a transfer back that isn't answered."""
        taken, end = self.host.unlink(number), time.monotonic() + TAKING_BACK
        while (answer := self.next(end)) is not None and answer.number != taken:
            self.keep(answer)

    def set_interface(self, interface, setting):
        return self.control(bytes([1, 11, setting, 0, interface, 0, 0, 0]))

    # ---- messages and packets

    def keep(self, answer):
        """An answer that came beside: a message is kept and asked for again, packets wait."""
        if self.listening is None or answer.address != self.listening[0]:
            self.waiting.append(answer)
        elif answer.status == 0:
            self.messages.append(answer.data)
            self.listen(*self.listening)

    def listen(self, address, size, interval):
        """Asks for the next interrupt message of an endpoint."""
        self.listening = address, size, interval
        self.submit(address, room=size, interval=interval)

    def packets(self, address, lengths, interval):
        """Hands in isochronous packets, silent ones to the device; the transfer's number."""
        return self.submit(address, b"" if address & 0x80 else bytes(sum(lengths)), lengths, interval=interval)

    def take(self, seconds):
        """The next transfer of packets that ended: its number, its bytes, each packet's state and length; None where none comes."""
        end = time.monotonic() + seconds
        while not self.waiting:
            answer = self.next(end)
            if answer is None:
                return None
            self.keep(answer)
        answer = self.waiting.popleft()
        return answer.number, answer.data, [(state, told) for _, told, state in answer.packets]

    def end(self):
        """Detaches the device. Nothing is left to say of it."""
        self.host.close()
        return []
