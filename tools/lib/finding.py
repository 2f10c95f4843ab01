"""What a tool finds wrong: where, which field, its value, what would be right, and whose rule it is; in words, and as an object of JSON."""
from descriptor import standard_name
from rules import CASES
from terminals import kind_words

ARTICLES = {"a": "an", "e": "an", "i": "an", "o": "an"}


# Types of blocks that are kept whole, as they stand in interfaces of other classes.
OTHER_TYPES = {1: "device descriptor", 3: "string descriptor", 5: "endpoint", 6: "device qualifier", 7: "other-speed configuration",
               15: "BOS descriptor", 0x21: "class block of HID or another class", 0x24: "class block", 0x25: "class endpoint"}


def kind_name(block):
    """What a block is, as 'feature unit' or 'block of type 0x30'."""
    if block.kind is None:
        known = OTHER_TYPES.get(block.data[1])
        return f"{known} (type {block.data[1]:#04x})" if known else f"block of type {block.data[1]:#04x}"
    names = {"header": "header", "general": "General", "type_one": "Type I block", "class_endpoint": "class endpoint"}
    return names.get(block.kind) or kind_words(block.kind)


def with_article(words):
    return f"{ARTICLES.get(words[0], 'a')} {words}"


def places(at, end):
    """Bytes of the input by their places, as 'byte 82' or 'bytes 20 to 21'."""
    return f"byte {at}" if end - at <= 1 else f"bytes {at} to {end - 1}"


def low_first(value, size):
    return value.to_bytes(size, "little").hex(" ")


def write(block, field, value, shown=None):
    """The advice to write a value in a field, as 'write 275 in wTotalLength (bytes 20 to 21: 13 01)'."""
    at, end = block.span(field)
    there = places(block.place + at, block.place + end)
    as_bytes = f": {low_first(value, end - at)}"
    return f"write {shown or value} in {standard_name(block.kind, field)} ({there}{as_bytes})"


def sentence(text):
    """A text as a sentence, with a full stop, and a capital letter but for a name of the standard or of a file."""
    first = text.split(" ")[0]
    is_name = "/" in first or any(letter.isupper() for letter in first[1:])
    return (text if is_name else text[:1].upper() + text[1:]) + ("" if text.endswith((".", ":")) else ".")


class Finding:
    """A case of rules.py in a descriptor: the text says what was done wrong, the way what to write. Fields are of the block, each with
    the value that would be right (None where there is no one such value). Where no block could be cut, length is the field's name and
    value."""

    def __init__(self, case, text, way, block=None, fields=(), wanted=None, at=None, rule=None, length=None):
        self.case, self.text, self.way, self.block, self.fields = CASES[case], text, way, block, dict(fields)
        self.wanted = wanted if wanted is not None else next((value for value in self.fields.values() if value is not None), None)
        self.at, self.rule, self.no_block = at, rule or CASES[case].rule, length

    @property
    def kind(self):
        return self.case.kind

    @property
    def field(self):
        return next(iter(self.fields), None)

    @property
    def place(self):
        """The first byte of the field, or of the block."""
        if self.block is None or self.at is not None:
            return self.at
        return self.block.place + (self.block.span(self.field) or (0, 0))[0] if self.field else self.block.place

    @property
    def length(self):
        if self.block is None:
            return 1 if self.no_block else 0
        span = self.block.span(self.field) if self.field else None
        return span[1] - span[0] if span else len(self.block.data)

    @property
    def value(self):
        if self.no_block:
            return self.no_block[1]
        return self.block.value(self.field) if self.block is not None and self.field else None

    def as_json(self):
        """The object of this finding, as docs/TOOLS.md has it."""
        name = standard_name(self.block.kind, self.field) if self.field else self.no_block[0] if self.no_block else None
        return {"rule": self.rule, "case": self.case.name, "kind": self.kind, "place": self.place, "length": self.length, "field": name,
                "value": self.value, "wanted": self.wanted, "text": sentence(self.text), "advice": sentence(self.way),
                "said": self.case.said}
