"""The program as a real device: what it answers to random transfers, and what went over its bus, as a script with a device's answers."""
import os, random, subprocess, sys
from needs import PROGRAM, TOP, as_lines
sys.path.insert(0, os.path.join(TOP, "tools", "lib"))
from descriptor import cut, entities_of
from streams import shapes_of

REQUESTS = [(0xA1, 1), (0xA1, 2), (0x21, 1), (0x80, 6), (0x81, 10), (0x01, 11)]
VOLUMES = ["0000", "00f6", "0080", "0040", "8000", "00a0", "000c", "00ff"]
RATES = ["80bb0000", "44ac0000", "00ee0200", "00770100", "401f0000", "00710200"]


def transfer(luck, blocks):
    """A random transfer, mostly to what is there."""
    entities = list(entities_of(blocks).values())
    interfaces = sorted({block["number"] for block in blocks if block.kind == "interface"})
    kind, number = luck.choice(REQUESTS[:3] * 4 + REQUESTS)
    if kind in (0x81, 0x01):
        return bytes([kind, number, luck.choice([0, 0, 1, 1, 2]), 0, luck.choice(interfaces), 0, int(kind == 0x81), 0]), b""
    if kind == 0x80:
        return bytes([kind, number, 0, 2, 0, 0, luck.choice([4, 9, 255]), luck.randrange(2)]), b""
    owner = interfaces[luck.randrange(len(interfaces))] if luck.random() < 0.2 else interfaces[0]
    entity = luck.choice(entities)["id"] if luck.random() < 0.9 and owner == interfaces[0] else luck.choice([0, 99])
    selector, channel = luck.choice([1, 1, 2, 2, 3, 9]), luck.choice([0, 0, 1, 1, 2, 3])
    sent = bytes.fromhex(luck.choice(["00", "01", "02", "0100", "0300", *VOLUMES, *RATES])) if kind == 0x21 else b""
    length = len(sent) if kind == 0x21 else luck.choice([1, 2, 4, 6, 8, 14, 200])
    return bytes([kind, number, channel, selector, owner, entity]) + length.to_bytes(2, "little"), sent


def random_script(seed, data, count):
    """Lines of a script after the descriptor: transfers, clocks that are off, microframes with losses."""
    luck, blocks, lines = random.Random(seed), cut(data)[0], ["v 2"]
    for _ in range(count):
        setup, sent = transfer(luck, blocks)
        lines.append(f"c {setup.hex()}" + (f" {sent.hex()}" if sent else ""))
        if luck.random() < 0.15:
            lines.append(f"m {luck.randrange(1, 200)}")
    return lines


def bus_event(words, shape, settings):
    """A line o, i or f of a transcript as the comment on the bus has it."""
    interface = int(words[1])
    if words[0] == "f":
        data = int(words[2], 16).to_bytes(4, "little").hex() if words[3] == "ok" else "-"
        return f"f {interface} {words[2] if words[3] == 'ok' else '-'} {words[3]} {data}"
    size = int(words[2]) * shape[interface, settings[interface]].frame
    return f"{words[0]} {interface} {words[2]} {'ok' if words[3] == 'over' else words[3]} {size}"


def answered_by_program(data, lines):
    """The script with the program's answers as a device's, and its lines o, i and f as what went over the bus."""
    script = as_lines(data).decode() + "g\n"
    done = subprocess.run([PROGRAM, "run"], input=(script + "".join(line + "\n" for line in lines)).encode(), stdout=subprocess.PIPE)
    told = [line.split(" ") for line in done.stdout.decode().split("\n")]
    assert told[0][0] == "ready" and done.returncode == 0, done.stdout[-200:]
    asked, shapes, settings, out, events, number = iter(line for line in lines if line[0] == "c"), shapes_of(cut(data)[0]), {}, [], [], 0
    for words in [*told[1:], ["u", "0"]]:
        if words[0] in ("c", "u") and events:
            out.append(f"# bus {number}: {', '.join(events)}")
            events = []
        if words[0] == "u":
            number = int(words[1])
        elif words[0] in ("o", "i", "f"):
            events.append(bus_event(words, shapes, settings))
        elif words[0] == "c":
            line = next(asked)
            out += [line, f"# said {'stall' if words[1] == 'stall' else ' '.join(words[1:])}"]
            if line.startswith("c 010b") and words[1] == "done":
                settings[int(line[10:12], 16)] = int(line[6:8], 16)
    return script + "".join(line + "\n" for line in out)
