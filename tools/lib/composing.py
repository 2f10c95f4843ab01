"""A friendlier text for a script: words in place of letters and bytes, comments behind a line, the descriptor by its file's name.

Lines of the script stand in it as they are. Each line that comes of it keeps the number of the text's line that made it."""
import difflib, os, re
from fractions import Fraction
from descriptor import cut, settings_of
from scripted import LINES
from tool import Refused, read_input

FORMS = {
    "descriptor": "descriptor FILE",
    "start": "start INTERFACE, or start INTERFACE SETTING",
    "stop": "stop INTERFACE",
    "rate": "rate CLOCK HZ",
    "mute": "mute ENTITY CHANNEL on, or off in its place",
    "volume": "volume ENTITY CHANNEL NUMBER dB, or silence in place of the number and dB",
    "clock": "clock CLOCK NUMBER ppm",
    "wait": "wait NUMBER ms, or s or microframes in place of ms",
    "lose": "lose out INTERFACE for NUMBER (in or report in place of out; 'and' between several; NUMBER counts microframes, or has ms "
            "behind it)",
    "detail": "detail 0, 1 or 2",
    "report": "report",
}
MARKS = {"out": "o", "in": "i", "report": "f"}
# How many microframes a unit of time has.
UNITS = {"microframe": 1, "microframes": 1, "ms": 8, "s": 8000}
BYTES_OF_A_LINE = 48
MOST_OF_A_LINE = 8000
MOST_MICROFRAMES = 3600 * 8000
SILENCE = -32768


class Script:
    """The lines of a script, the line of the text that made each, and the descriptor's bytes."""

    def __init__(self, name):
        self.name, self.lines, self.origins, self.texts, self.descriptor = name, [], [], {}, b""

    def add(self, line, number):
        self.lines.append(line)
        self.origins.append(number)

    def data(self):
        return "".join(line + "\n" for line in self.lines).encode()


def number_of(word, what, least=None, most=None):
    """A whole number."""
    if re.fullmatch(r"[+-]?\d{1,12}", word) is None:
        raise Refused(f"{what} is wanted as a whole number, and {word!r} is none")
    value = int(word)
    if least is not None and not least <= value <= most:
        raise Refused(f"{what} is {least} to {most}, and {value} isn't")
    return value


def part_of(word, what):
    """A number that may have digits behind a point."""
    if re.fullmatch(r"[+-]?\d{1,12}(\.\d{1,12})?", word) is None:
        raise Refused(f"{what} is wanted as a number, as 20 or 0.5, and {word!r} is none")
    return Fraction(word)


def channel_of(word):
    return 0 if word == "master" else number_of(word, "a channel (master, or 1, 2 ..)", 0, 255)


def microframes_of(words):
    """A time, as ['20', 'ms']; a number alone counts microframes."""
    unit = words[1] if len(words) > 1 else "microframes"
    if unit not in UNITS:
        raise Refused(f"{unit!r} is no unit of time here: ms, s or microframes")
    count = part_of(words[0], "a time") * UNITS[unit]
    if count.denominator != 1:
        raise Refused(f"{' '.join(words)} isn't a whole number of microframes, of which 8 are a millisecond")
    if not 1 <= count <= MOST_MICROFRAMES:
        raise Refused(f"{' '.join(words)} is {count} microframes: 1 to {MOST_MICROFRAMES}, which is an hour, are taken")
    return int(count)


def lines_of_time(count, marks=""):
    """Lines `m` of so many microframes."""
    while count:
        piece = min(count, MOST_OF_A_LINE)
        yield f"m {piece}{marks}"
        count -= piece


class Wrong(Exception):
    """That a line has not the words of its form."""


def wanted(words, *counts):
    if len(words) not in counts:
        raise Wrong


def of_descriptor(words, script, folder):
    if not words:
        raise Wrong
    name = os.path.join(folder, " ".join(words))
    data = read_input(name)
    script.descriptor += data
    for at in range(0, len(data), BYTES_OF_A_LINE):
        yield f"d {data[at:at + BYTES_OF_A_LINE].hex()}"
    yield "g"


def setting_line(interface, setting):
    return f"c 010b{setting.to_bytes(2, 'little').hex()}{interface.to_bytes(2, 'little').hex()}0000"


def of_start(words, script, _):
    wanted(words, 1, 2)
    interface = number_of(words[0], "an interface", 0, 255)
    if len(words) == 2:
        yield setting_line(interface, number_of(words[1], "a setting", 0, 255))
        return
    all_settings = [setting["setting"] for setting in settings_of(cut(script.descriptor)[0]) if setting["number"] == interface]
    running = [setting for setting in all_settings if setting]
    if not running:
        why = "has no setting above 0" if all_settings else "is no streaming interface of the descriptor in front"
        raise Refused(f"interface {interface} {why}: 'start {interface} SETTING' asks all the same")
    yield setting_line(interface, running[0])


def of_stop(words, *_):
    wanted(words, 1)
    yield setting_line(number_of(words[0], "an interface", 0, 255), 0)


def of_rate(words, *_):
    wanted(words, 2)
    yield f"h set rate.{number_of(words[0], 'a clock', 0, 255)}.0 {number_of(words[1], 'a rate in Hz')}"


def of_mute(words, *_):
    wanted(words, 3)
    value = {"on": 1, "1": 1, "off": 0, "0": 0}.get(words[2])
    if value is None:
        raise Wrong
    yield f"h set mute.{number_of(words[0], 'an entity', 0, 255)}.{channel_of(words[1])} {value}"


def of_volume(words, *_):
    if words[2:] == ["silence"]:
        value = Fraction(SILENCE)
    else:
        wanted(words, 4)
        if words[3].lower() != "db":
            raise Wrong
        value = part_of(words[2], "a volume in dB") * 256
    if value.denominator != 1:
        raise Refused(f"{words[2]} dB isn't a multiple of 1/256 dB, which a volume is counted in")
    yield f"h set volume.{number_of(words[0], 'an entity', 0, 255)}.{channel_of(words[1])} {value}"


def of_clock(words, *_):
    wanted(words, 3)
    if words[2] != "ppm":
        raise Wrong
    yield f"k {number_of(words[0], 'a clock', 0, 255)} {number_of(words[1], 'a deviation in ppm')}"


def of_wait(words, *_):
    wanted(words, 2)
    yield from lines_of_time(microframes_of(words))


def of_lose(words, *_):
    if "for" not in words:
        raise Wrong
    at = words.index("for")
    parts, time, marks = " ".join(words[:at]).split(" and "), words[at + 1:], ""
    wanted(time, 1, 2)
    for part in parts:
        pair = part.split(" ")
        if len(pair) != 2 or pair[0] not in MARKS:
            raise Wrong
        marks += f" {MARKS[pair[0]]}{number_of(pair[1], 'an interface', 0, 255)}"
    yield from lines_of_time(microframes_of(time), marks)


def of_detail(words, *_):
    wanted(words, 1)
    yield f"v {number_of(words[0], 'the detail', 0, 2)}"


def of_report(words, *_):
    wanted(words, 0)
    yield "q"


MAKERS = {"descriptor": of_descriptor, "start": of_start, "stop": of_stop, "rate": of_rate, "mute": of_mute, "volume": of_volume,
          "clock": of_clock, "wait": of_wait, "lose": of_lose, "detail": of_detail, "report": of_report}


def words_of(line):
    """The words of a line without its comment, which begins the line or stands behind a space."""
    return re.sub(r"(^|\s)#.*$", "", line).split()


def keep_descriptor(words, script):
    """Takes in the bytes of a line `d`, where they are hex."""
    if words[0] == "d" and len(words) == 2 and re.fullmatch(r"([0-9a-fA-F]{2})+", words[1]):
        script.descriptor += bytes.fromhex(words[1])


def made_of(words, script, folder):
    """The lines of the script that a line of the text makes."""
    word, rest = words[0], words[1:]
    if word in LINES:
        keep_descriptor(words, script)
        return [" ".join(words)]
    if word not in MAKERS:
        near = difflib.get_close_matches(word, MAKERS, 1)
        raise Refused(f"{word!r} is no word of this text and no letter of the script" + (f"; is {near[0]!r} meant?" if near else ""))
    try:
        return list(MAKERS[word](rest, script, folder))
    except Wrong:
        raise Refused(f"the words of '{word}' are: {FORMS[word]}")


def composed(name, data):
    """The script that a text makes. What can't be read is refused with its line."""
    script, folder = Script(name), os.path.dirname(name) if name != "-" else ""
    try:
        lines = data.decode("utf-8-sig").split("\n")
    except UnicodeDecodeError:
        raise Refused(f"{name} is no text: lines of words are wanted")
    for number, line in enumerate(lines, 1):
        words = words_of(line)
        if not words:
            continue
        try:
            made = made_of(words, script, folder)
        except Refused as why:
            raise Refused(f"line {number} of {name}, '{line.strip()}': {why}")
        script.texts[number] = line.strip()
        if words[0] not in LINES:
            script.add(f"# {' '.join(words)}", number)
        for one in made:
            script.add(one, number)
    return script
