"""A control request in words, as 'SET CUR volume.3.1 -2560', and its answer, by the names that a script's elements have."""
from controls import control_of
from descriptor import entities_of, is_streaming, little
from standard import OF_INTERFACES, standard_name

NAMES = {(0xA1, 1): "GET CUR", (0xA1, 2): "GET RANGE", (0x21, 1): "SET CUR", (0x80, 6): "GET_DESCRIPTOR", (0x81, 10): "GET_INTERFACE",
         (0x01, 11): "SET_INTERFACE"}
# The requests of the class: CUR, RANGE and MEM (Audio Class 2.0, A.14).
CODES = (1, 2, 3)
# The value of GET_DESCRIPTOR for the first configuration.
CONFIGURATION = 0x0200


class Request:
    """The eight setup bytes and what was sent, read for the function of these blocks."""

    def __init__(self, setup, sent, blocks):
        self.setup, self.sent = setup, sent
        self.name = NAMES.get((setup[0], setup[1]), f"request {setup[0]:02x} {setup[1]:02x}")
        self.value, self.index, self.length = little(setup[2:4]), little(setup[4:6]), little(setup[6:8])
        self.selector, self.channel = setup[3], setup[2]
        interfaces = [block for block in blocks if block.kind == "interface"]
        header = next((block.place for block in blocks if block.kind == "header"), -1)
        owner = [block["number"] for block in interfaces if block.place < header][-1:]
        self.streams = {block["number"] for block in interfaces if is_streaming(block)}
        self.others = {block["number"] for block in interfaces} - self.streams - set(owner)
        self.is_of_control = self.name.endswith(("CUR", "RANGE"))
        self.is_of_owner = [setup[4]] == owner
        self.entity = entities_of(blocks).get(setup[5]) if self.is_of_owner and self.is_of_control else None
        self.control = control_of(self.entity.kind, self.selector) if self.entity is not None else None

    @property
    def is_judged(self):
        """Whether a transfer speaks to the audio function by the requests that are judged here."""
        if self.name == "GET_DESCRIPTOR":
            return self.value == CONFIGURATION
        return (self.is_unknown or self.setup[:2] in {bytes(pair) for pair in NAMES}) and self.setup[4] not in self.others

    @property
    def is_unknown(self):
        """Whether it is a request of the class, to an interface, that no table of the standard has."""
        return self.setup[0] in (0x21, 0xA1) and self.setup[1] not in CODES

    @property
    def of_interface(self):
        """The name of a streaming interface's control, None where it speaks of none."""
        is_one = self.is_of_control and self.setup[4] in self.streams and self.setup[5] == 0
        return OF_INTERFACES.get(self.selector) if is_one else None

    @property
    def target(self):
        """What a request to a control speaks of."""
        if self.entity is not None:
            name = self.control.element or self.control.name if self.control is not None else standard_name(self.entity.kind, self.selector)
            if name is not None:
                return f"{name}.{self.setup[5]}.{self.channel}"
        if self.of_interface is not None:
            return f"{self.of_interface} of interface {self.setup[4]}"
        owner = f"entity {self.setup[5]}" if self.is_of_owner or self.setup[5] else ""
        owner += "" if self.is_of_owner else (" at " if owner else "") + f"interface {self.setup[4]}"
        return f"selector {self.selector} channel {self.channel} of {owner}"

    def in_words(self):
        if self.name in ("GET CUR", "GET RANGE"):
            return f"{self.name} {self.target}"
        if self.name == "SET CUR":
            fits = self.control is not None and len(self.sent) == self.control.width
            return f"{self.name} {self.target} " + (str(self.control.value_of(self.sent)) if fits else f"bytes {self.sent.hex() or '-'}")
        if self.name == "GET_DESCRIPTOR":
            return f"{self.name} {self.value:#06x}, at most {self.length} bytes"
        if self.name == "GET_INTERFACE":
            return f"{self.name} {self.index}"
        if self.name == "SET_INTERFACE":
            return f"{self.name} {self.index} setting {self.value}"
        return f"{self.name} value {self.value:#06x} index {self.index:#06x}"

    def number(self, data):
        """The number in a control's bytes, None where they aren't its own whole."""
        return self.control.value_of(data) if self.control is not None and len(data) == self.control.width else None

    def value_in_words(self, data):
        """What an answer's bytes mean, where they are those of a control whole; else nothing."""
        control = self.control
        if control is None or control.name == "connector":
            return ""
        if self.name == "GET CUR" and len(data) == control.width:
            return f" ({control.value_of(data)})"
        size = 3 * control.width
        if self.name == "GET RANGE" and len(data) >= 2 and len(data) == 2 + little(data[:2]) * size:
            values = [control.value_of(data[at:at + control.width]) for at in range(2, len(data), control.width)]
            parts = zip(values[::3], values[1::3], values[2::3])
            told = (f"{least} to {most} by {step}" if least != most or step else str(least) for least, most, step in parts)
            return f" ({', '.join(told)})"
        return ""
