"""What a refused line of a script wanted: its form, the numbers that it takes, and what the descriptor has that it could name."""
from controls import CONTROLS
from descriptor import cut, entities_of, settings_of
from terminals import USB_STREAMING
from tool import ask

# Each line's words, as docs/SCRIPT.md has them, and the numbers that it takes.
LINES = {
    "d": ("d HEX", "HEX is pairs of hexadecimal digits"),
    "g": ("g", ""),
    "c": ("c HEX, or c HEX HEX", "the first HEX is eight bytes"),
    "h": ("h get NAME, h set NAME VALUE, or h show NAME", "VALUE is -2147483648 to 2147483647"),
    "b": ("b before, or b after", ""),
    "a": ("a INTERFACE SAMPLE ..", "INTERFACE is 0 to 255, each SAMPLE -2147483648 to 2147483647"),
    "t": ("t INTERFACE none, t INTERFACE ramp START STEP, or t INTERFACE noise SEED",
          "INTERFACE is 0 to 255, START and STEP -2147483648 to 2147483647, SEED 0 to 4294967295"),
    "j": ("j TERMINAL none, j TERMINAL ramp START STEP, or j TERMINAL noise SEED",
          "TERMINAL is 0 to 255, START and STEP -2147483648 to 2147483647, SEED 0 to 4294967295"),
    "k": ("k CLOCK PPM", "CLOCK is 0 to 255, PPM -100000 to 100000"),
    "m": ("m COUNT, and up to 24 marks as o1, i2 or f1", "COUNT is 1 to 8000, an interface 0 to 255"),
    "v": ("v DETAIL", "DETAIL is 0, 1 or 2"),
    "q": ("q", ""),
}
MOST_NAMES = 12


def list_of(what, names):
    """The names that there are, as 'clocks here: 1, 3'."""
    names = [str(name) for name in names]
    more = f" and {len(names) - MOST_NAMES} more" if len(names) > MOST_NAMES else ""
    return f"{what} here: {', '.join(names[:MOST_NAMES]) or 'none'}{more}"


def streams_of(blocks, kind):
    """The interfaces that link to a terminal of this kind."""
    by_id = entities_of(blocks)
    links = {(setting["number"], setting["general"]["link"]) for setting in settings_of(blocks) if "general" in setting}
    return sorted(number for number, link in links if link in by_id and by_id[link].kind == kind)


def names_for(words, descriptor):
    """What a line could have named."""
    blocks, _ = cut(descriptor)
    terminals = [block for block in blocks if block.kind in ("input_terminal", "output_terminal")]
    if words[0] == "h":
        return list_of("elements", [line.split(" ")[0] for line in ask("elements", descriptor)[0]])
    if words[0] == "j":
        jacks = [block["id"] for block in terminals if block.kind == "input_terminal" and block["terminal_type"] != USB_STREAMING]
        return list_of("input jacks", jacks)
    if words[0] == "k":
        return list_of("clocks that terminals name", sorted({block["clock"] for block in terminals}))
    outs = list_of("interfaces that carry a stream to the device", streams_of(blocks, "input_terminal"))
    ins = list_of("interfaces that carry a stream from it", streams_of(blocks, "output_terminal"))
    return outs if words[0] in ("a", "t") else f"{outs}; {ins}"


def sizes_for(words, descriptor):
    """How many samples a frame has, or the values that fit an element's bytes."""
    blocks, _ = cut(descriptor)
    by_id = entities_of(blocks)
    if words[0] == "a":
        links = {str(setting["number"]): setting["general"]["link"] for setting in settings_of(blocks) if "general" in setting}
        return f"a frame of interface {words[1]} has {by_id[links[words[1]]]['channels']} samples, and {len(words) - 2} are there"
    kind, entity, _ = words[2].split(".")
    control = next(control for control in CONTROLS[by_id[int(entity)].kind] if control.element == kind)
    most = (1 << 8 * control.width - control.signed) - 1
    return f"the bytes of {words[2]} hold {-most - 1 if control.signed else 0} to {min(most, 2147483647)}"


def hint(rule, line, descriptor):
    """What would be right in place of a refused line, in words; nothing where the rule's sentence says all."""
    words = line.split(" ")
    form, numbers = LINES.get(words[0], ("", ""))
    if rule == "S3" and form:
        return f"the line's words are: {form}" + (f"; {numbers}" if "HEX" in numbers else "")
    if rule == "S4":
        return numbers
    if rule == "S5":
        return ("the device runs already: a script has one descriptor, and one end of it" if words[0] in ("d", "g") else
                "the descriptor comes first: a line 'descriptor FILE', or lines d and then g")
    return {"S6": names_for, "S7": sizes_for}[rule](words, descriptor) if rule in ("S6", "S7") else ""
