"""How far each stream's clock is off, from the lines `k` and `m` of a script."""
from descriptor import cut, entities_of, settings_of
from tool import Refused


def clocks_of(descriptor):
    """The clock of each streaming interface: that of the terminal to which it links."""
    blocks, _ = cut(descriptor)
    by_id = entities_of(blocks)
    links = {setting["number"]: setting["general"]["link"] for setting in settings_of(blocks) if "general" in setting}
    return {number: by_id[link]["clock"] for number, link in links.items() if link in by_id}


def lines_of(script):
    """The lines `k` and `m` of a script with their numbers, as far as they are spelt well."""
    for line in script.lines:
        words = line.split(" ")
        try:
            if words[0] == "m":
                yield "m", int(words[1]), 0
            elif words[0] == "k":
                yield "k", int(words[1]), int(words[2])
        except (ValueError, IndexError):
            return


def deviations_of(script, told):
    """By interface: pairs of a microframe and the ppm by which the stream's clock is off from its begin on."""
    now, changes = 0, {}
    for kind, number, ppm in lines_of(script):
        if kind == "m":
            now += number
        else:
            changes.setdefault(number, []).append((now, ppm))
    if now < told.last:
        raise Refused(f"{script.name} is no script of this run: it has {now} microframes, and {told.name} has {told.last}")
    found = {}
    for interface, clock in clocks_of(script.descriptor).items():
        before = {at: ppm for at, ppm in [(0, 0)] + changes.get(clock, [])}
        found[interface] = [(at, ppm) for at, ppm in before.items() if at < told.last]
    return found
