"""The words of tools/serve, and the lines that it takes from standard input while it runs.

A line that the program refuses ends its run, so each is judged here first: its spelling, its ranges and its names, by docs/SCRIPT.md."""
import re
from program import LONGEST_INPUT, LONGEST_LINE
from tool import Refused, options_of
from usbip import PORT

NUMBER = r"(?:0|-?[1-9][0-9]*)"
BITS_32 = -2147483648, 2147483647
MOST_PPM = 100000
# A run has room for a device and some turns at least.
LEAST_LIMIT = 100000
CUSHION, PACE = 256, 8000
FLAGS = ("--list",)
VALUES = ("--host", "--port", "--out", "--check", "--pace", "--clock", "--lose-reports", "--cushion", "--limit")


def number_in(text, least, most, what):
    """A number of a line or word."""
    if not re.fullmatch(NUMBER, text) or len(text) > 12:
        raise Refused(f"'{text}' is no number: {what} is {least} to {most}")
    if not least <= int(text) <= most:
        raise Refused(f"{text} is out of range: {what} is {least} to {most}")
    return int(text)


class Options:
    """What the words say. A clock is a domain, None for all, and its deviation; losses are so many of each so many reports."""

    def __init__(self, words):
        self.files, flags, given = options_of(words, FLAGS, VALUES)
        self.is_list, self.check = "--list" in flags, given.get("--check")
        self.host, self.out = given.get("--host", "127.0.0.1"), given.get("--out")
        self.port = number_in(given.get("--port", str(PORT)), 0, 65535, "a port")
        self.pace = number_in(given.get("--pace", str(PACE)), 0, 1000000, "the microframes in a second")
        self.cushion = number_in(given.get("--cushion", str(CUSHION)), 0, 8000, "the cushion, in microframes,")
        self.limit = number_in(given.get("--limit", str(LONGEST_INPUT)), LEAST_LIMIT, LONGEST_INPUT, "the bytes of a run")
        self.clock = self.clock_of(given.get("--clock"))
        self.losses = self.losses_of(given.get("--lose-reports"))

    def clock_of(self, text):
        if text is None:
            return None
        front, mark, ppm = text.rpartition(":")
        domain = number_in(front, 0, 255, "a domain") if mark else None
        return domain, number_in(ppm, -MOST_PPM, MOST_PPM, "a clock's deviation in ppm")

    def losses_of(self, text):
        if text is None:
            return None
        found = re.fullmatch(f"({NUMBER}) of each ({NUMBER})", text)
        if found is None:
            raise Refused(f"'{text}' isn't as --lose-reports wants it: '2 of each 10'")
        each = number_in(found[2], 1, 1000000, "the number of reports")
        return number_in(found[1], 0, each, "how many of them are lost"), each


def lines_at_start(options, device):
    """The lines that hold for each visit of a device, by what they set."""
    if options.clock is None:
        return {}
    domain, ppm = options.clock
    if domain is not None and domain not in device.domains:
        return {}
    return {("k", str(one)): f"k {one} {ppm}" for one in (device.domains if domain is None else [domain])}


def names_of(numbers):
    return ", ".join(map(str, numbers)) or "there is none"


def judge_clock(words, device):
    if len(words) != 3:
        raise Refused("a clock is set by 'k DOMAIN PPM'")
    if number_in(words[1], 0, 255, "a domain") not in device.domains:
        raise Refused(f"there is no domain {words[1]}: {names_of(device.domains)}")
    number_in(words[2], -MOST_PPM, MOST_PPM, "a clock's deviation in ppm")


def judge_jack(words, device):
    forms = {("none", 3): (), ("ramp", 5): (BITS_32, BITS_32), ("noise", 4): ((0, 4294967295),)}
    form = forms.get((words[2] if len(words) > 2 else "", len(words)))
    if form is None:
        raise Refused("a jack's tone is set by 'j JACK none', 'j JACK ramp START STEP' or 'j JACK noise SEED'")
    if number_in(words[1], 0, 255, "a jack") not in device.jacks:
        raise Refused(f"there is no input jack {words[1]}: {names_of(device.jacks)}")
    for word, (least, most) in zip(words[3:], form):
        number_in(word, least, most, "a number of a tone")


def judge_element(words, device):
    if len(words) != {"get": 3, "show": 3, "set": 4}.get(words[1] if len(words) > 1 else "", 0):
        raise Refused("an element is asked for by 'h get NAME' or 'h show NAME', and set by 'h set NAME VALUE'")
    if words[2] not in device.elements:
        raise Refused(f"there is no element {words[2][:40]}: {names_of(device.elements)}")
    if words[1] == "set":
        width, is_signed = device.width_of(words[2])
        least = -(1 << 8 * width - 1) if is_signed else 0
        most = (1 << 8 * width - is_signed) - 1
        number_in(words[3], least, min(most, BITS_32[1]), f"a value of {words[2]}")


def judge_line(line, device):
    """Refuses a line that the program would refuse, or that isn't taken here, with a sentence."""
    if not line.isascii() or not line.isprintable() or len(line) >= LONGEST_LINE:
        raise Refused(f"a line is printable ASCII, of fewer than {LONGEST_LINE} bytes")
    words = line.split(" ")
    if line.startswith("#"):
        return
    if words[0] == "k":
        judge_clock(words, device)
    elif words[0] == "j":
        judge_jack(words, device)
    elif words[0] == "h":
        judge_element(words, device)
    elif line not in ("b before", "b after"):
        raise Refused("lines k, j, h, '#' and 'b before' or 'b after' are taken here, with one space between two words")
