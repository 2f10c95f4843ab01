"""What a device is asked, point by point: what is there and what isn't, good requests and bad ones, values and settings.

Each value that is changed is set again as it was as soon as its control was tried; `restore` does so for what an interruption left."""
from descriptor import entities_of, settings_of, unread_units_of
from differences import counted
from harmless import harmless_value
from points import one_too_many, owner_of, points_of_entity, points_of_interface
from standard import CONTROLS_OF
from told import subranges
from trials import MOST_ENDS, trials_of, untried_ends

CUR, RANGE, NO_REQUEST = 1, 2, 4
GET, SET = 0xA1, 0x21
# More bytes than there are, so many; and the most that can be asked.
MORE, MOST = 16, 65535
# The most rates of a clock at which its streams' settings are visited.
MOST_RATES = 24
NOT_HERE = "what isn't there"
# What is asked of no device, and why.
NEVER_ASKED = (("controls of endpoints", "the proved program doesn't play them"),
               ("memory of entities", "what stands there is the vendor's own"),
               ("requests of vendors", "what they would do isn't known here"))


class Questions:
    """Asks; `keeper` knows what may be set and what was."""

    def __init__(self, dialogue, keeper, blocks):
        self.dialogue, self.keeper, self.blocks = dialogue, keeper, blocks
        # An entity that a refused descriptor cuts short may lack its id.
        self.by_id = {number: block for number, block in entities_of(blocks).items() if number is not None}
        self.owner, self.ranges = owner_of(blocks), {}
        self.settings, self.was_set_while_running = {}, set()
        for one in settings_of(blocks):
            self.settings.setdefault(one["number"], []).append(one)
        self.points = self.declared(point for block in self.by_id.values() for point in points_of_entity(block, self.owner, self.by_id))
        self.faces = {number: self.declared(points_of_interface(blocks, number)) for number in self.settings}

    def declared(self, points):
        """The points of which the descriptor says whether they are there; the others are left out."""
        points = list(points)
        for point in points:
            if point.bits is None:
                self.keeper.leave_out(f"{point.target}", "no field of the descriptor says whether it is there")
        return [point for point in points if point.bits is not None]

    # ---- one request

    def cur(self, point, length, is_bad=False):
        return self.dialogue.ask(point.group, point.setup(GET, CUR, length), is_bad=is_bad)

    def range(self, point, length, is_bad=False):
        return self.dialogue.ask(point.group, point.setup(GET, RANGE, min(length, MOST)), is_bad=is_bad)

    def read(self, point):
        """The value whole, kept where it came whole."""
        said = self.cur(point, point.width, not point.is_declared)
        if said.kind == "bytes":
            self.keeper.hear(point, said.data)
        return said

    def set(self, point, data, is_bad=False):
        """Kept as set before it is asked: where an interruption comes before the answer was heard, the device may have done it."""
        self.keeper.was_set(point)
        return self.dialogue.ask(point.group, point.setup(SET, CUR, len(data)), data, is_bad)

    def interface(self, number, setting, is_bad=False):
        return self.dialogue.ask(f"streaming interface {number}", bytes([1, 11, setting, 0, number, 0, 0, 0]), is_bad=is_bad)

    def setting_of(self, number, is_bad=False):
        return self.dialogue.ask(f"streaming interface {number}", bytes([0x81, 10, 0, 0, number, 0, 1, 0]), is_bad=is_bad)

    # ---- all that is asked

    def ask_all(self):
        for number in self.settings:
            self.setting_of(number)
            if not self.keeper.is_read_only:
                self.interface(number, 0)
        for point in [*self.points, *[point for face in self.faces.values() for point in face]]:
            self.read_point(point)
        for block in self.by_id.values():
            self.ask_too_many([point for point in self.points if point.block is block])
            self.ask_other_selector(block)
        for number, face in self.faces.items():
            self.ask_other_of_interface(number, face)
        self.ask_what_is_not_there()
        for point in self.points:
            self.try_point(point)
        self.visit_settings()
        for what, why in NEVER_ASKED:
            self.keeper.leave_out(what, why)

    # ---- reading

    def read_point(self, point):
        """CUR and RANGE with the control's length, less and more; of one that isn't declared whether it is stalled."""
        self.read(point)
        if not point.is_declared:
            self.ask_absent(point)
            return
        self.cur(point, point.width + MORE)
        if point.width > 1:
            self.cur(point, point.width - 1)
        if point.has_ranges:
            self.read_ranges(point)
        else:
            self.range(point, 2)
        if point.is_only_read:
            self.try_read_only(point)

    def read_ranges(self, point):
        """A range: its number of subranges, then whole, with more room, and cut."""
        said = self.range(point, 2)
        if said.kind != "bytes" or len(said.data) != 2:
            return
        whole = 2 + 3 * point.width * int.from_bytes(said.data, "little")
        told = self.range(point, whole)
        self.ranges[point.key] = subranges(told.data, point.control)
        self.range(point, whole + MORE)
        self.range(point, whole - 1)

    # ---- what should be stalled

    def ask_absent(self, point):
        """The range of a control that isn't there, where it could have one, and a SET to what it told, or to what can't be heard."""
        if point.has_ranges:
            self.range(point, 2, True)
        if self.keeper.is_read_only:
            self.keeper.leave_out(f"SET CUR {point.target}", "--read-only")
        elif point.control is None:
            self.keeper.leave_out(f"SET CUR {point.target}", "it isn't declared, and what it would do isn't known here")
        else:
            self.set(point, self.keeper.first.get(point.key) or harmless_value(point), True)

    def try_read_only(self, point):
        """A control that can only be read is set to what it is."""
        first = self.keeper.first.get(point.key)
        if self.keeper.is_read_only or first is None:
            why = "--read-only" if self.keeper.is_read_only else "its value couldn't be read"
            self.keeper.leave_out(f"SET CUR {point.target}", why)
            return
        self.set(point, first, True)
        self.read(point)

    def ask_too_many(self, points):
        """Each control of an entity on the channel after its last."""
        for point in one_too_many(points):
            self.cur(point, point.width, True)
            self.ask_absent(point)

    def ask_other_selector(self, block):
        """A control that the standard gives no such entity."""
        if block.kind not in CONTROLS_OF:
            self.keeper.leave_out(f"other controls of {block.kind} {block['id']}", "they are those of its type, which isn't read here")
            return
        front = bytes([0, max(CONTROLS_OF[block.kind]) + 1, self.owner, block["id"]])
        group = next((point.group for point in self.points if point.block is block), NOT_HERE)
        for number in (CUR, RANGE):
            self.dialogue.ask(group, bytes([GET, number]) + front + b"\2\0", is_bad=True)

    def ask_other_of_interface(self, number, face):
        """A streaming interface's controls on a channel, a control that there isn't, and a setting that there isn't."""
        self.cur(face[0].beside(1), 1, True)
        self.dialogue.ask(face[0].group, bytes([GET, CUR, 0, 9, number, 0, 1, 0]), is_bad=True)
        if self.keeper.is_read_only:
            self.keeper.leave_out("settings of streaming interfaces", "--read-only")
            return
        known = {one["setting"] for one in self.settings[number]}
        for other in [setting for setting in range(1, 256) if setting not in known][:1]:
            self.interface(number, other, True)
            self.setting_of(number)

    def ask_what_is_not_there(self):
        """Requests, an entity and an interface that there aren't, and a setting of the control interface."""
        ids = list(self.by_id) or [0]
        numbers = {block["number"] for block in self.blocks if block.kind == "interface"}
        interface = next(number for number in range(256) if number not in numbers)
        known, absent = [self.owner, ids[0]], [*[[self.owner, number] for number in self.absent_entities()[:1]], [interface, ids[0]]]
        for number, place in [(NO_REQUEST, known), *[(number, place) for place in absent for number in (CUR, RANGE)]]:
            self.dialogue.ask(NOT_HERE, bytes([GET, number, 0, 1, *place, 2, 0]), is_bad=True)
        self.setting_of_other(interface)
        if self.keeper.is_read_only:
            return
        for number, place in [(NO_REQUEST, known), *[(CUR, place) for place in absent]]:
            self.dialogue.ask(NOT_HERE, bytes([SET, number, 0, 1, *place, 1, 0]), b"\1", True)
        for place, setting in ((interface, 0), (self.owner, 1)):
            self.dialogue.ask(NOT_HERE, bytes([1, 11, setting, 0, place, 0, 0, 0]), is_bad=True)

    def absent_entities(self):
        """The ids that no entity has, and no unit that isn't read here: a request to one of those would change it."""
        units = unread_units_of(self.blocks)
        for words in units.values():
            self.keeper.leave_out(words, "its controls are those of its type, which isn't read here")
        absent = [number for number in range(1, 256) if number not in self.by_id and number not in units]
        if not absent:
            self.keeper.leave_out("an entity that isn't there", "each of the 255 ids has one")
        return absent

    def setting_of_other(self, interface):
        self.dialogue.ask("control interface", bytes([0x81, 10, 0, 0, self.owner, 0, 1, 0]))
        self.dialogue.ask(NOT_HERE, bytes([0x81, 10, 0, 0, interface, 0, 1, 0]), is_bad=True)

    # ---- values

    def try_point(self, point):
        """A control that a host may set: its values, those that it shouldn't take, and then as it was."""
        if not point.is_settable:
            return
        first = self.keeper.first.get(point.key)
        if point.control is None:
            self.keeper.leave_out(f"SET CUR {point.target}", "the proved program doesn't play it")
            return
        if first is None or self.keeper.is_read_only:
            self.keeper.leave_out(f"SET CUR {point.target}", self.keeper.why_not(point, b""))
            return
        untried = untried_ends(self.ranges.get(point.key))
        if untried:
            self.keeper.leave_out(f"SET CUR {point.target}, {counted(untried, 'more end')} of its subranges",
                                  f"of a control {MOST_ENDS} ends are tried")
        for trial in trials_of(point, first, self.ranges.get(point.key)):
            why = self.keeper.why_not(point, trial.data)
            if why is not None:
                self.keeper.leave_out(f"SET CUR {point.target}, {trial.words}", why)
                continue
            self.set(point, trial.data, trial.is_bad)
            self.read(point)
        self.set_again(point)

    def set_again(self, point):
        """A control as it was when it was first read."""
        first = self.keeper.first[point.key]
        self.set(point, first)
        self.read(point)
        if self.keeper.now[point.key] != first:
            self.keeper.not_restored.append((point.key, point.target))

    def restore(self):
        """Everything as it was, after an interruption, too."""
        if self.keeper.is_read_only:
            return
        changed = self.keeper.changed()
        for number in self.settings if changed or self.dialogue.asked else ():
            self.interface(number, 0)
        for point in changed:
            if point.is_settable and point.key not in {key for key, _ in self.keeper.not_restored}:
                self.set_again(point)

    # ---- settings

    def sources_behind(self, clock, seen=()):
        """The clock sources from which a clock takes its rate."""
        block = self.by_id.get(clock)
        if block is None or clock in seen:
            return set()
        if block.kind == "clock_source":
            return {clock}
        return set().union(*(self.sources_behind(one, (*seen, clock)) for one in block.sources or ()))

    def streams_of(self, clock):
        """The streaming interfaces whose terminal has its rate from this clock source."""
        for number, settings in self.settings.items():
            links = {one["general"]["link"] for one in settings if "general" in one}
            clocks = {self.by_id[link]["clock"] for link in links if link in self.by_id}
            if any(clock in self.sources_behind(one) for one in clocks):
                yield number

    def rates_of(self, point):
        """The rates that a clock lists; of a range between two, its ends."""
        rates = []
        for least, most, _ in self.ranges.get(point.key) or []:
            rates += [rate for rate in dict.fromkeys((least, most)) if rate not in rates]
        if len(rates) > MOST_RATES:
            self.keeper.leave_out(f"settings at {counted(len(rates) - MOST_RATES, 'more rate')} of {point.target}",
                                  f"of a clock {MOST_RATES} rates are visited")
        return rates[:MOST_RATES]

    def visit_settings(self):
        """The settings of each stream, at each rate that its clock lists and a host may set."""
        if self.keeper.is_read_only:
            return
        visited = set()
        for point in self.points:
            if point.name != "frequency" or not point.is_settable or self.keeper.why_not(point, b"") is not None:
                continue
            streams = list(self.streams_of(point.entity))
            for rate in self.rates_of(point) if streams else ():
                self.set(point, rate.to_bytes(4, "little"))
                self.read(point)
                self.visit(streams, point, rate)
                visited.update(streams)
            self.set_again(point)
        self.visit([number for number in self.settings if number not in visited])

    def visit(self, streams, clock=None, rate=None):
        """Each setting of these interfaces, taken and left."""
        for number in streams:
            controls = [point for point in self.faces[number] if point.is_declared]
            for setting in sorted({one["setting"] for one in self.settings[number]} - {0}):
                said = self.interface(number, setting)
                self.setting_of(number)
                for point in controls:
                    self.read(point)
                if said.kind == "done" and clock is not None:
                    self.try_rate_while_running(number, clock, rate)
                self.interface(number, 0)
            self.setting_of(number)

    def try_rate_while_running(self, number, clock, rate):
        """Another rate while a stream runs, once for each stream: a device may take it or not, and then has to tell which holds."""
        other = next((one for one in self.rates_of(clock) if one != rate), None)
        if number in self.was_set_while_running or other is None:
            return
        self.was_set_while_running.add(number)
        self.set(clock, other.to_bytes(4, "little"), True)
        self.read(clock)
        if self.keeper.now[clock.key] != rate.to_bytes(4, "little"):
            self.interface(number, 0)
            self.set(clock, rate.to_bytes(4, "little"))
            self.read(clock)
