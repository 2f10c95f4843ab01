"""What can be put right in a descriptor without guessing: totals, counts, swapped bytes, an association in front."""
from cautions import cautions
from descriptor import cut, standard_name
from finding import places
from interfaces import topology_finding
from refusals import association_bytes, grammar_finding, is_cut_off

# The cases in which one value alone is right, so that writing it is no guess.
SURE = ("total", "header-total", "association-codes", "endpoint-count", "wrong-length", "no-length", "version", "control-protocol")
# Of warnings, in this order: what an association counts is known once no stream is hidden.
SURE_WARNINGS = ("hidden-stream", "association-first", "association-count", "association-subclass", "interface-count", "reserved-bit",
                 "control-setting", "control-endpoints", "swapped-controls")
STEPS = 32


def put(data, block, field, value):
    """The bytes with a value in a field, and what that changed; None where it changes nothing."""
    at, end = block.span(field)
    piece = value.to_bytes(end - at, "little")
    if block.data[at:end] == piece:
        return None
    at, end = block.place + at, block.place + end
    changed = f"{standard_name(block.kind, field)}, {places(at, end)}: {data[at:end].hex(' ')} became {piece.hex(' ')}"
    return data[:at] + piece + data[end:], changed


def with_association(data, finding):
    """The bytes with an audio association in front of the control interface, and its bytes counted in the total."""
    blocks, _ = cut(data)
    block = finding.block
    fresh = association_bytes(block, blocks)
    whole = data[:block.place] + fresh + data[block.place:]
    owner = next((one for one in blocks if one.kind == "configuration"), None)
    changes = [f"an audio association at {block.place}: {fresh.hex(' ')}"]
    if owner is not None:
        written = put(whole, owner, "total", owner["total"] + len(fresh))
        whole, changed = written if written else (whole, None)
        changes += [changed] if changed else []
    return whole, changes


def in_fields(data, finding):
    """The bytes with the right value in each field of a finding."""
    changes = []
    for field, value in finding.fields.items():
        written = put(data, finding.block, field, value) if value is not None else None
        if written is not None:
            data = written[0]
            changes.append(written[1])
    return data, changes


def is_sure(finding, data):
    """Whether one value alone is right: what is missing can't be known, and what says version 3.0 may be that."""
    if finding.case.name not in SURE or None in finding.fields.values():
        return False
    if finding.case.name == "version":
        return finding.block["version"] in (0x0100, 0x0002)
    if finding.case.name in ("control-protocol", "association-codes"):
        return finding.block["protocol"] in (0x00, 0x20)
    if finding.case.name == "endpoint-count":
        return finding.block["endpoints"] < finding.fields["endpoints"]
    return finding.case.name != "total" or not is_cut_off(finding.block, cut(data)[0])


def step(check, data):
    """One thing put right in refused bytes: the bytes, and what changed; nothing changed where none is sure."""
    _, rule, which, number = check.split()
    blocks, _ = cut(data)
    finding = grammar_finding(rule, int(number), data) if rule[0] == "G" else topology_finding(rule, which, int(number), blocks)
    if finding.case.name == "no-association" and finding.block["subclass"] == 1:
        return with_association(data, finding)
    if finding.case.name == "no-length" and finding.wanted is not None:
        at = finding.at
        return data[:at] + bytes([finding.wanted]) + data[at + 1:], [f"bLength, byte {at}: {data[at]:02x} became {finding.wanted:02x}"]
    if finding.case.name == "padding":
        return data[:finding.at], [f"{len(data) - finding.at} zero bytes at {finding.at} are left out"]
    return in_fields(data, finding) if finding.block is not None and is_sure(finding, data) else (data, [])


def is_surely_swapped(block):
    """Whether control words whose bytes look swapped say as they stand that a host may set an underflow, which it can only read."""
    return any(word >> 26 & 3 == 3 for word in block["words"])


def careful_step(data):
    """One warning's thing put right in sound bytes: the bytes, and what changed."""
    found = [one for one in cautions(cut(data)[0]) if one.case.name in SURE_WARNINGS and None not in one.fields.values()
             and (one.case.name != "swapped-controls" or is_surely_swapped(one.block))]
    for finding in sorted(found, key=lambda one: SURE_WARNINGS.index(one.case.name)):
        whole, done = in_fields(data, finding)
        if done:
            return whole, done
    return data, []


def mended(check, data, judge):
    """The bytes with what can be put right, and what was changed; judge gives the program's last line on bytes. What is sound stays so."""
    changes = []
    for _ in range(STEPS):
        is_sound = check.startswith("ok")
        whole, done = careful_step(data) if is_sound else step(check, data)
        if not done:
            break
        check = judge(whole)
        if is_sound and not check.startswith("ok"):
            break
        data, changes = whole, changes + done
    return data, changes
