"""A device that isn't asked: for --dry-run the proved program answers in its place, so that one sees what would be asked."""
from outcome import Outcome
from proved import Proved


class Pretended:
    """The program as the device; where it doesn't take the descriptor, a device whose every byte is 0."""
    is_configured = False

    def __init__(self, name, speed, configuration):
        self.name, self.speed, self.messages, self.proved = name, speed, [], Proved(configuration)

    def begin(self, interfaces):
        """Nothing is to be taken from a driver here."""

    def control(self, setup, sent=b""):
        is_in, length = bool(setup[0] & 0x80), int.from_bytes(setup[6:8], "little")
        if self.proved.refusal is not None or setup[0] == 0x80 and setup[:4] != b"\x80\x06\0\2":
            return Outcome("bytes", bytes(length)) if is_in else Outcome("done")
        words = self.proved.ask(setup, sent).split(" ")
        return Outcome(words[0], b"" if words[0] != "bytes" or words[1] == "-" else bytes.fromhex(words[1]))

    def set_interface(self, interface, setting):
        return self.control(bytes([1, 11, setting, 0, interface, 0, 0, 0]))

    def listen(self, address, size, interval):
        """There are no messages here."""

    def end(self):
        self.proved.close()
        return []
