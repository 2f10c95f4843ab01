"""What rule G6 finds: a block that the order of a descriptor doesn't allow where it stands, and where it should stand."""
from descriptor import ENTITY_KINDS, cut, entities_of, is_streaming, settings_of
from finding import Finding, kind_name, with_article, write
from interfaces import free_terminal, is_out
from topology import channels_of, locations_of

def what(block):
    """A block, as 'a class endpoint (25 01)'."""
    if block.kind is None:
        return with_article(kind_name(block))
    code = block.data[1:3].hex(" ") if block.data[1] in (0x24, 0x25) else block.data[1:2].hex()
    return f"{with_article(kind_name(block))} ({code})"


def is_control(block):
    return (block["class"], block["subclass"], block["protocol"]) == (1, 1, 0x20)


def not_first(block, blocks):
    """The configuration isn't the first block."""
    first = next((one for one in blocks if one.kind in ("configuration",)), None)
    start = first.place if first else None
    device = next((one for one in blocks if one.data[1] == 1 and len(one.data) == 18 and first and one.place < first.place), None)
    begins = min(one.place for one in (first, device) if one) if first else None
    advice = (f"leave the {begins - block.place} bytes out: the {'device descriptor' if device else 'configuration'} stands at {begins}"
              if start is not None else "give the configuration descriptor (type 0x02) first")
    return Finding("not-first", f"{what(block)} stands in front of the configuration", advice, block, {"type": 2}, at=block.place)


def wrong_turn(block, before, blocks):
    """A streaming interface whose number or setting isn't in turn; None where it is."""
    number, setting = block["number"], block["setting"]
    seen = [one for one in before if one.kind == "interface"]
    control = next((one for one in seen if is_control(one)), None)
    same = [one for one in seen if is_streaming(one) and one["number"] == number]
    free = next(one for one in range(1, 257) if one not in {other["number"] for other in blocks if other.kind == "interface"} or one == 256)
    if control is not None and control["number"] == number:
        return Finding("interface-again", f"the streaming interface at {block.place} has the number {number} of the control interface "
                       f"at {control.place}", write(block, "number", free), block, {"number": free})
    later = [one for one in blocks if one.kind == "interface" and is_streaming(one) and one["number"] == number and one.place > block.place]
    if setting == 0 and same:
        following = next((one for one in blocks if one.kind == "interface" and one.place > block.place and one["setting"] == 1), None)
        right = following["number"] if following is not None and following["number"] != number else free
        return Finding("interface-again", f"interface {number} begins again at {block.place}, and setting 0 of interface {number} stands "
                       f"at {same[0].place} already", write(block, "number", right), block, {"number": right})
    if setting and not same:
        fresh = bytes((9, 4, number, 0, 0, 1, 2, 0x20, 0)).hex(" ")
        zero = next((one for one in later if one["setting"] == 0), None)
        text = f"Interface {number} begins with setting {setting}; setting 0 has to come first"
        if zero is not None:
            return Finding("settings-order", text, f"put setting 0, at {zero.place}, with all its blocks in front of {block.place}", block,
                           {"setting": 0}, wanted=0)
        return Finding("setting-missing", f"{text}, and isn't there", f"put {fresh} at {block.place}; its 9 bytes count in wTotalLength",
                       block, {"setting": 0}, wanted=fresh)
    return apart(block, same, seen, later) if setting else None


def apart(block, same, seen, later):
    """Setting k that doesn't follow setting k - 1."""
    number, setting = block["number"], block["setting"]
    name = f"setting {setting} of interface {number}, at {block.place},"
    double = next((one for one in same if one["setting"] == setting), None)
    if double is not None:
        return Finding("interface-again", f"{name} stands at {double.place} already", write(block, "setting", same[-1]["setting"] + 1),
                       block,
                       {"setting": same[-1]["setting"] + 1})
    if same[-1]["setting"] != setting - 1:
        missing = setting - 1 not in [one["setting"] for one in same + later]
        return Finding("setting-missing" if missing else "settings-order",
                       f"{name} follows setting {same[-1]['setting']}" + ("; no setting " + f"{setting - 1} is there" if missing else ""),
                       write(block, "setting", same[-1]["setting"] + 1), block, {"setting": same[-1]["setting"] + 1})
    if seen[-1] is not same[-1]:
        return Finding("settings-order", f"{name} stands apart from setting {setting - 1}: interface {seen[-1]['number']} stands between",
                       f"put it right behind the blocks of setting {setting - 1}, which begin at {same[-1].place}", block,
                       {"setting": None})
    return None


def entity_bytes(at, blocks):
    """The bytes of the entities from a place on."""
    size = 0
    for block in (one for one in blocks if one.place >= at):
        if block.kind not in ENTITY_KINDS:
            break
        size += len(block.data)
    return size


def in_control(block, inner, interface, blocks):
    """A block of the control interface that has no place there."""
    header = next((one for one in inner if one.kind == "header"), None)
    if header is None and (block is None or block.kind != "header"):
        rest = "nothing stands" if block is None else f"{what(block)} stands"
        at = interface.place + 9
        later = next((one for one in blocks if one.kind == "header" and one.place > at), None)
        if later is not None and block is not None:
            return Finding("no-header", f"the header, at {later.place}, stands behind {what(block)} at {block.place}; it is the first of "
                           "its interface", f"put the header at {at}", block, {"subtype": 1} if block.data[1] == 0x24 else {"type": 0x24})
        fresh = (bytes((9, 0x24, 1, 0, 2, 0)) + (9 + entity_bytes(at, blocks)).to_bytes(2, "little") + bytes(1)).hex(" ")
        return Finding("no-header", f"the control interface at {interface.place} has no header: {rest} right behind it",
                       f"put {fresh} at {at}; its 9 bytes count in wTotalLength of the configuration", block or interface, {}, at=at,
                       wanted=fresh)
    last = inner[-1]
    if block.kind == "header" and header is not None:
        return Finding("second-header", f"a second header stands at {block.place}; the first is at {header.place}",
                       "leave the second out, and count the entities in the first", block, {"subtype": None})
    if block.kind in ENTITY_KINDS:
        return Finding("late-entity", f"{what(block)} stands at {block.place}, behind {what(last)} at {last.place}",
                       f"put all entities right behind the header at {header.place}", block, at=block.place)
    return plain(block, last)


def plain(block, last):
    """What has no sentence of its own."""
    return Finding("order", f"{what(block)} stands at {block.place}, behind {what(last)} at {last.place}, where it isn't taken",
                   "docs/DESCRIPTORS.md has the order; put it where that has it, or leave it out", block, {"type": None}, at=block.place)


def behind_general(block, inner, kinds):
    """A class block of a streaming interface, or an endpoint, in a setting that has a General."""
    last = inner[-1]
    if block.data[1] == 0x24:
        again = next((one for one in inner if one.kind == block.kind and block.kind in ("general", "type_one")), None)
        if again is not None and "endpoint" not in kinds:
            return Finding("block-twice", f"a second {kind_name(block)} stands at {block.place}; the first is at {again.place}",
                           "leave one of them out", block, {"subtype": None}, at=block.place)
        return plain(block, last)
    if block.kind == "endpoint" and kinds.count("endpoint") == 2:
        return Finding("third-endpoint", f"a third endpoint of the setting stands at {block.place}", "leave it out, or give it a setting "
                       "of its own", block, {"address": None}, at=block.place)
    return plain(block, last)


def without_endpoint(block, inner, last, blocks):
    """A class endpoint that isn't right behind an endpoint."""
    if last.kind == "class_endpoint":
        return Finding("block-twice", f"a second class endpoint stands at {block.place}; the first is at {last.place}", "leave one of them "
                       "out", block, {"subtype": None})
    endpoint = next((one for one in reversed(inner) if one.kind == "endpoint"), None)
    if endpoint is not None:
        return Finding("order", f"the class endpoint at {block.place} isn't right behind its endpoint at {endpoint.place}: {what(last)} "
                       f"stands between, at {last.place}", f"put it at {endpoint.place + len(endpoint.data)}", block, {"type": None})
    following = next((one for one in blocks if one.place > block.place), None)
    if following is not None and following.kind == "endpoint":
        advice = f"put the endpoint at {following.place} in front of it"
    else:
        advice = "put it right behind its endpoint (type 0x05)"
    return Finding("class-first", f"a class endpoint (25 01) stands at {block.place}, behind {what(last)} and in front of its endpoint",
                   advice, block, {"type": None}, at=block.place)


def general_behind(block, blocks):
    """The General of a setting that stands behind this block of it, None where none does."""
    for one in (one for one in blocks if one.place > block.place):
        if one.kind in ("interface", "association"):
            return None
        if one.kind == "general":
            return one
    return None


def fresh_general(interface, blocks):
    """The General that a setting lacks, where one USB terminal alone is left for it."""
    setting = next(one for one in settings_of(blocks) if (one["number"], one["setting"]) == (interface["number"], interface["setting"]))
    terminal = free_terminal(blocks, interface["number"], is_out(setting))
    if terminal is None:
        return None
    by_id = entities_of(blocks)
    return (bytes((16, 0x24, 1, terminal["id"], 0, 1, 1, 0, 0, 0, channels_of(terminal, by_id)))
            + locations_of(terminal, by_id).to_bytes(4, "little") + bytes(1)).hex(" ")


def in_stream(block, inner, interface, blocks):
    """A block of a streaming interface that has no place there."""
    kinds, last = [one.kind for one in inner], (inner or [interface])[-1]
    name = f"setting {interface['setting']} of interface {interface['number']}"
    if last.data[1] == 0x30 and block.kind in ("class_endpoint", "endpoint"):
        return Finding("companion", f"a companion of super speed (type 0x30) stands at {last.place}, in front of {what(block)} at "
                       f"{block.place}",
                       "give the descriptors that the device tells at high speed, where an endpoint has no companion", last, {"type": None})
    if block.kind == "class_endpoint" and last.kind != "endpoint":
        return without_endpoint(block, inner, last, blocks)
    if "general" not in kinds and (block.data[1] == 0x24 or block.kind == "endpoint"):
        if interface["setting"] == 0 and block.kind == "endpoint":
            return Finding("setting-0-general", f"{name} has an endpoint at {block.place}, and setting 0 has none, since it takes "
                           "nothing of the bus", "leave it out, or put what streams into setting 1", block, {"address": None})
        later = general_behind(block, blocks)
        if later is not None:
            return Finding("order", f"the General of {name}, at {later.place}, stands behind {what(block)} at {block.place}",
                           f"put the General at {block.place}", block, {"subtype": None} if block.data[1] == 0x24 else {"type": None})
        fresh = fresh_general(interface, blocks)
        return Finding("no-general", f"{name} has no General (24 01): {what(block)} stands at {block.place}, right behind its interface",
                       f"put {fresh or '10 24 01 and its 13 bytes'} at {block.place}; its 16 bytes count in wTotalLength", block, {},
                       at=block.place, wanted=fresh)
    if "general" in kinds and (block.data[1] == 0x24 or block.kind == "endpoint"):
        return behind_general(block, inner, kinds)
    return plain(block, last)


def order_finding(place, data):
    """The finding of rule G6 at a place."""
    blocks, _ = cut(data)
    block = next((one for one in blocks if one.place == place), None)
    before = [one for one in blocks if one.place < place]
    if block is not None and not any(one.kind == "configuration" for one in before):
        return not_first(block, blocks)
    at = next((k for k in range(len(before) - 1, -1, -1) if before[k].kind == "interface"), None)
    interface = before[at] if at is not None else None
    if block is not None and block.kind == "interface" and is_streaming(block):
        found = wrong_turn(block, before, blocks)
        if found is not None:
            return found
    if block is not None and block.kind == "configuration":
        return Finding("behind-total", f"a second configuration stands at {block.place}", "give one configuration alone", block,
                       {"type": None})
    if interface is None:
        return Finding("no-interface", f"{what(block)} stands at {block.place}, in front of every interface",
                       "put it behind the interface that it belongs to", block, {"type": None}, at=block.place)
    inner = before[at + 1:]
    if is_control(interface):
        return in_control(block, inner, interface, blocks)
    return in_stream(block, inner, interface, blocks) if is_streaming(interface) else plain(block, before[-1])
