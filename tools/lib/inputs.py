"""A descriptor as people have it: bytes, or text of them (hex, xxd, od -tx1, hexdump -C, a C array); whole, or its function alone."""
import re
from descriptor import cut, is_of_audio
from refusals import association_bytes
from tool import Refused



def of_c(text):
    """The numbers of a C array: within braces where there are some; comments are passed over."""
    text = re.sub(r"/\*.*?\*/|//[^\n]*|^\s*#[^\n]*", " ", text, flags=re.DOTALL | re.MULTILINE)
    inner = re.search(r"\{(.*)\}", text, re.DOTALL)
    data = bytearray()
    for number, word in enumerate(re.split(r"[,\s{}]+", (inner[1] if inner else text).strip(" ,;\n\t{}")), 1):
        found = re.fullmatch(r"(0[xX][0-9a-fA-F]+|0[bB][01]+|\d+)[uUlL]*", word)
        if word and found is None:
            raise Refused(f"the {number}. entry of the text, {word[:40]!r}, isn't a plain number: write the bytes that it stands for")
        value = (int(found[1], 8) if re.fullmatch("0[0-7]+", found[1]) else int(found[1], 0)) if found else None
        if value is not None and value > 255:
            raise Refused(f"the {number}. entry of the text, {word}, isn't a byte: write its two bytes, {value & 255:#04x}, "
                          f"{value >> 8 & 255:#04x}")
        data += bytes([value]) if value is not None else b""
    return bytes(data)


def addressed(lines):
    """The bytes of lines with an address in front (xxd, od, hexdump), or None where the text isn't such."""
    rows = [re.match(r"^([0-9a-fA-F]{4,16})(:?)(?:\s+|$)(.*)$", line) for line in lines if line.strip() != "*"]
    if not rows or any(row is None for row in rows) or len({len(row[1]) for row in rows}) > 1 or int(rows[0][1], 16) != 0:
        return None
    base = 8 if len(rows[0][1]) == 7 else 16
    data, piece = bytearray(), b""
    try:
        stars = [at for at, line in enumerate(lines) if line.strip() == "*"]
        for at, line in enumerate(lines):
            if at in stars:
                continue
            row = re.match(r"^([0-9a-fA-F]{4,16})(:?)\s*(.*)$", line)
            place = int(row[1], base)
            while stars and piece and len(data) < place:
                data += piece
            if place != len(data):
                return None
            piece = of_row(row[3], bool(row[2]))
            data += piece
    except ValueError:
        return None
    return bytes(data)


def is_dump(lines):
    """Whether lines begin with addresses that rise from 0."""
    rows = [re.match(r"^([0-9a-fA-F]{6,8}):?(\s|$)", line) for line in lines if line != "*"]
    places = [int(row[1], 16) for row in rows if row is not None]
    return len(places) == len(rows) > 1 and places[0] == 0 and all(one < other for one, other in zip(places, places[1:]))


def of_row(text, is_xxd):
    """The bytes of one line behind its address: up to the characters that xxd and hexdump -C print."""
    text = re.split(r"\s{2,}\S", text)[0] if is_xxd else re.sub(r"\s(\|.*|>.*<)$", "", text)
    if not is_xxd and any(len(word) != 2 for word in text.split()):
        raise ValueError("words of more than a byte")
    return bytes.fromhex(re.sub(r"\s", "", text))


def of_hex(text):
    """Plain hex, with comments, and with colons, commas or spaces between."""
    text = re.sub(r"(#|//|;)[^\n]*", " ", text)
    found = re.sub(r"[\s:,-]|0[xX]", "", text)
    wrong = re.search(r"[^0-9a-fA-F]", found)
    if wrong is not None:
        raise Refused(f"the text isn't hex, a dump or a C array: {found[max(0, wrong.start() - 8):wrong.start() + 12]!r} isn't hex")
    if len(found) % 2:
        raise Refused(f"the text has {len(found)} hex digits, and two make a byte: one is missing, or too many")
    return bytes.fromhex(found)


def bytes_of_text(data):
    """The bytes of a text: hex, xxd, od -tx1, hexdump -C, or a C array."""
    try:
        text = data.decode("utf-8-sig")
    except UnicodeDecodeError:
        raise Refused("this is no text: leave --text out for bytes")
    lines = [line.rstrip() for line in text.splitlines() if line.strip()]
    dump = addressed(lines)
    if dump is None and is_dump(lines):
        raise Refused("the text is a dump that isn't read, as of words of two bytes, or with lines left out: give it as xxd, od -tx1 or "
                      "hexdump -C print it")
    if dump is None and ("{" in text or re.search(r"\b0[xX][0-9a-fA-F]{1,2}\b", text) or re.search(r"^\s*\d+\s*,", text)):
        dump = of_c(text)
    if dump is None:
        dump = of_hex(text)
    if not dump:
        raise Refused("the text has no bytes")
    return dump


# ---- from the audio function on

def begins(data):
    """The kind of the first block: 'association' or 'control' where it is one of audio 2.0."""
    blocks, _ = cut(data)
    first = blocks[0] if blocks else None
    if first is None:
        return None
    if first.kind == "association" and len(first.data) == 8 and is_of_audio(first):
        return "association"
    codes = (first["class"], first["subclass"], first["protocol"]) if first.kind == "interface" and len(first.data) == 9 else None
    return "control" if codes == (1, 1, 0x20) else None


def complete(data):
    """The bytes with what is missing in front of an audio function, how many these are, and a sentence on them (None where none are)."""
    first = begins(data)
    if first is None:
        return data, 0, None
    blocks, _ = cut(data)
    association = association_bytes(blocks[0], blocks) if first == "control" else b""
    count = len({one["number"] for one in blocks if one.kind == "interface"})
    total = 9 + len(association) + len(data)
    front = bytes((9, 2, total & 255, total >> 8 & 255, count, 1, 0, 0x80, 50)) + association
    what = "a configuration" if first == "association" else "a configuration and an audio association"
    name = "its audio association" if first == "association" else "its control interface"
    return front + data, len(front), (f"The input begins at {name}: {what} of {len(front)} bytes was put in front ({front.hex(' ')}). "
                                      f"Places below count these: the input's first byte is at {len(front)}.")
