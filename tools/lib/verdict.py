"""A device's answers judged: what the standard wants, and what the device itself told before; what is its own choice is learnt and kept.

Whether a transfer is to be answered or stalled, and with which bytes, the proved program says (proved.py), whose controls are first set to
what the device told. What it can't hold is judged here alone, and noted. After a difference the device's answer is taken for what holds."""
from controls import access_of, is_programmable
from descriptor import cut, entities_of, little, settings_of
from differences import CONTRADICTS, LIMIT, PROFILE, STANDARD, WARNING, Difference, counted
from request import Request
from standard import bits_of, moves_by_itself, standard_name
from told import CLOCKS, SILENCE, Told, is_in, subranges

REQUESTS, LAYOUTS, SELECTORS = "Audio Class 2.0, 5.2", "Audio Class 2.0, 5.2.2", "Audio Class 2.0, A.17"
VOLUMES = "Audio Class 2.0, 5.2.5.7.2"
STANDARD_REQUESTS, DESCRIPTORS, SETTINGS = "USB 2.0, 9.4", "USB 2.0, 9.4.3", "USB 2.0, 9.4.10"
CODES, TIMES = "Audio Class 2.0, A.14", "USB 2.0, 9.2.6.1"
# A device has so many seconds for any request.
LONGEST_REQUEST = 5
# Why a stall is wanted, by the program's rule.
ABSENT = {"Q2": "The configuration has no interface {interface}", "Q3": "No entity has the id {entity}",
          "Q4": "The standard gives it no control {selector}", "Q5": "The descriptor declares the control absent: its two bits are 00",
          "Q6": "The entity has no channel {channel}", "Q7": "The control can only be read",
          "Q11": "Interface {interface} has no setting {setting}"}
# Controls whose bytes the profile chose where the standard is not taken for it: their first width is theirs.
OWN_WIDTH = ("connector", "selector", "numerator", "denominator")
# What the profile gives ranges, and the standard needn't.
OWN_RANGES = ("selector", "numerator", "denominator", "node")
BOOLEANS = ("mute", "validity")


class Verdict:
    """Takes the items of a script in turn: what the device told so far, what is wrong, and how many transfers were compared."""

    def __init__(self, descriptor, proved, streams, differences, speed="high"):
        self.descriptor, self.proved, self.streams, self.differences, self.speed = descriptor, proved, streams, differences, speed
        self.blocks = cut(descriptor)[0]
        self.by_id, self.told = entities_of(self.blocks), Told()
        self.compared = self.passed_over = 0
        # How often it fell silent, whether it still is, and what was asked before that.
        self.silences, self.is_silent, self.before = 0, False, "no request"
        self.counts = {}
        for setting in settings_of(self.blocks):
            self.counts[setting["number"]] = max(self.counts.get(setting["number"], 0), setting["setting"])

    # ---- what is told

    def add(self, kind, rule, kept, request, value, wanted, text, said="", key=None):
        key = (request.name, request.target) if key is None else key
        self.differences.add(Difference(kind, rule, kept.line, request.in_words(), value, wanted, text, said, key=key))

    def wrong(self, rule, kept, request, wanted, text, said=REQUESTS, kind=STANDARD):
        self.add(kind, rule, kept, request, self.spell(kept.said, request), wanted, text, said)

    def contradicts(self, rule, kept, request, wanted, text, said=""):
        self.wrong(rule, kept, request, wanted, text, said, CONTRADICTS)

    def own(self, rule, kept, request, wanted, text):
        """What the device does otherwise than the profile, by its own right."""
        self.wrong(rule, kept, request, wanted, text, "", PROFILE)

    def alone(self, rule, kept, request, text):
        """What the program can't hold."""
        self.add(LIMIT, rule, kept, request, self.spell(kept.said, request), "", text)

    def spell(self, said, request):
        return f"bytes {said.data.hex() or '-'}{request.value_in_words(said.data)}" if said.kind == "bytes" else said.text

    def spell_bytes(self, data, request):
        return f"bytes {data.hex() or '-'}{request.value_in_words(data)}"

    # ---- a transfer

    def transfer(self, kept):
        request = Request(kept.setup, kept.sent, self.blocks)
        if not request.is_judged:
            self.passed_over += 1
            if kept.setup[:2] == b"\x00\x09" and kept.said is not None and kept.said.kind == "done":
                self.told.configured()
        elif kept.said is None or kept.said.kind == "broken":
            self.broken(kept, request)
        else:
            self.compared += 1
            self.is_silent, self.before = False, f"{request.in_words()} in line {kept.line}"
            self.answered(kept, request)

    def answered(self, kept, request):
        """A transfer that was answered or stalled."""
        if request.is_unknown:
            self.no_such_request(kept, request)
        else:
            {"GET CUR": self.get_cur, "GET RANGE": self.get_range, "SET CUR": self.set_cur, "GET_DESCRIPTOR": self.get_descriptor,
             "GET_INTERFACE": self.get_interface, "SET_INTERFACE": self.set_interface}[request.name](kept, request)

    def broken(self, kept, request):
        """A transfer whose answer isn't known: the device may have acted or not."""
        if kept.said is not None and kept.said.seconds is not None:
            self.silent(kept, request)
        elif kept.said is not None:
            self.add(WARNING, "broken", kept, request, kept.said.text, "an answer or a stall",
                     "The transfer broke, and what it would have set isn't known")
        if request.name == "SET CUR":
            self.told.hold(self.told.note(request), None)
        elif request.name == "SET_INTERFACE":
            self.told.settings.pop(request.index, None)
            self.streams.end(request.index)

    def silent(self, kept, request):
        """Nothing came: told once until the device answers again."""
        self.silences += not self.is_silent
        self.is_silent, key = True, ("silence", self.silences)
        told, last = (kept, request, kept.said.text, "an answer or a stall"), f"the last that it answered was {self.before}"
        if kept.said.seconds >= LONGEST_REQUEST:
            self.add(STANDARD, "no-answer", *told, f"A device has {LONGEST_REQUEST} seconds for any request; {last}", TIMES, key)
        else:
            self.add(WARNING, "no-answer", *told, f"The host waited no longer, where a device has {LONGEST_REQUEST} seconds; {last}", TIMES,
                     key)

    def no_such_request(self, kept, request):
        """A request that no table has is stalled, by the program too."""
        self.ask(request)
        if kept.said.kind != "stall":
            self.wrong("Q1", kept, request, "stall", f"The class has no request {request.setup[1]}", CODES)

    def ask(self, request):
        """What the program answers, None where it doesn't take the descriptor."""
        return None if self.proved is None else self.proved.ask(request.setup, request.sent)

    # ---- whether there is such a thing

    def is_absent(self, kept, request, answer):
        """Whether the answer must be a stall, by the program's rule or by the standard's list of controls; what isn't one is told."""
        rule = self.rule_of(kept, request, answer)
        if rule is None:
            return False
        if kept.said.kind != "stall":
            is_of_setting = request.name == "SET_INTERFACE"
            text = ABSENT[rule].format(interface=request.index if is_of_setting else request.setup[4], entity=request.setup[5],
                                       selector=request.selector, channel=request.channel, setting=request.value)
            self.wrong(rule, kept, request, "stall", text, SELECTORS if rule == "Q4" else SETTINGS if is_of_setting else REQUESTS)
        return True

    def rule_of(self, kept, request, answer):
        """The rule by which this is stalled, None where it needn't be."""
        rule = None if answer is None or not answer.startswith("stall ") else answer[6:]
        if rule == "Q4":
            return self.rule_of_other(kept, request)
        if request.control is not None and request.control.name in ("node", "enable") and rule in ("Q5", "Q6"):
            return None
        return rule if rule in ABSENT else None

    def rule_of_other(self, kept, request):
        """The rule for a control that the program doesn't play, or whose range it doesn't tell, by the standard's list."""
        if request.entity is None:
            return "Q4" if request.of_interface is None else "Q6" if request.channel else None
        bits = bits_of(request.entity, request.selector, request.channel)
        if bits == -1:
            return "Q4" if standard_name(request.entity.kind, request.selector) is None else "Q6"
        if bits == 0:
            return "Q5"
        if request.control is None:
            self.alone("other-control", kept, request, "a control that the program doesn't play")
        return "Q7" if bits == 1 and request.name == "SET CUR" else None

    # ---- values

    def get_cur(self, kept, request):
        key, said = self.told.note(request), kept.said
        known = self.told.values.get(key)
        answer = self.answer_to_get(kept, request, known)
        if self.is_absent(kept, request, answer):
            return
        if said.kind == "stall":
            is_there = answer is not None and answer.startswith("bytes")
            if is_there and (request.control is None or request.control.name not in ("node", "enable")):
                self.wrong("stall", kept, request, "an answer", "The control is declared, so it can be read")
            return
        if not self.has_length(kept, request):
            self.told.hold(key, None)
            return
        self.compare_value(kept, request, key, known)
        if answer is not None and key not in self.told.values and answer != f"bytes {said.data.hex() or '-'}":
            self.own("start", kept, request, answer, "Its value at the start is its own")
        is_front = known is not None and known.startswith(said.data)
        if not is_front:
            self.told.hear(key, said.data)

    def answer_to_get(self, kept, request, known):
        """What the program answers once it holds what is known."""
        if self.proved is None:
            return None
        if request.of_interface == "active_setting":
            setting = self.told.settings.get(request.setup[4])
            return self.proved.ask_in_setting(request.setup, request.setup[4], setting or 0)
        answer = self.ask(request)
        if known is None or not answer.startswith("bytes ") or answer == self.front_of(known, request) or self.moves(request):
            return answer
        if request.control is not None and request.control.element is not None and self.proved.hold(request, known):
            return self.ask(request)
        self.alone("value", kept, request, f"the program can't hold {self.spell_bytes(known, request)}")
        return answer

    def front_of(self, data, request):
        return f"bytes {data[:request.length].hex() or '-'}"

    def moves(self, request):
        """Whether a value may change without a host's doing."""
        if request.entity is None:
            return request.of_interface not in ("active_setting", "valid_settings")
        is_external = request.entity.kind == "clock_source" and request.selector == 1 and not is_programmable(request.entity, 1) \
            and request.entity["attributes"] & 3 != 1
        return is_external or moves_by_itself(request.entity.kind, request.selector)

    def is_too_long(self, kept, request):
        """Whether an answer is longer than was asked for, which is told."""
        is_one = kept.said.kind == "overflow" or len(kept.said.data) > request.length
        if is_one:
            self.wrong("longer-than-asked", kept, request, f"at most {counted(request.length, 'byte')}",
                       "An answer is no longer than wLength", STANDARD_REQUESTS)
        return is_one

    def has_length(self, kept, request):
        """Whether an answer is no longer than was asked for, and as long as the control."""
        said, width = kept.said, None if request.control is None or request.control.name in OWN_WIDTH else request.control.width
        if self.is_too_long(kept, request):
            return False
        if request.of_interface == "active_setting":
            width = 1
        if width is not None and said.is_whole and len(said.data) != min(width, request.length):
            self.wrong("other-length", kept, request, counted(min(width, request.length), "byte"), "The control's value has another length",
                       LAYOUTS)
            return False
        return True

    def compare_value(self, kept, request, key, known):
        """A value against what was told or set before, and against the device's own range."""
        data, number, ranges = kept.said.data, request.number(kept.said.data), self.told.ranges_of(key)
        if request.of_interface == "active_setting":
            setting = self.told.settings.get(request.setup[4])
            known = known if setting is None else bytes([setting])
        shared = 0 if known is None else min(len(known), len(data))
        if shared and not self.moves(request) and data[:shared] != known[:shared] and not self.told.is_doubted("value", key, data):
            self.told.doubt("value", key, known)
            self.contradicts("other-value", kept, request, self.spell_bytes(known[:request.length], request),
                             "The value that was set or told before has to hold, since nothing came between that may change it", LAYOUTS)
        elif number is not None and request.control.name in BOOLEANS and number not in (0, 1):
            self.wrong("no-boolean", kept, request, "00 or 01", "The control is on or off", LAYOUTS)
        elif number is not None and ranges and not any(least <= number <= most for least, most, _ in ranges) \
                and not (request.control.name == "volume" and number == SILENCE):
            self.contradicts("out-of-range", kept, request, f"a value of its own range ({spell_ranges(ranges)})",
                             "The value lies outside the range that the device told", LAYOUTS)

    # ---- ranges

    def get_range(self, kept, request):
        key, said, answer = self.told.note(request), kept.said, self.ask(request)
        if self.is_absent(kept, request, answer):
            return
        if said.kind == "stall":
            if answer is not None and answer.startswith("bytes") and request.control.name not in OWN_RANGES:
                self.wrong("stall", kept, request, "its ranges", "The control is declared, so it tells its range")
            return
        if not self.has_whole_ranges(kept, request):
            return
        known = self.told.ranges.get(key, b"")
        shared = min(len(known), len(said.data))
        if said.data[:shared] != known[:shared] and self.told.is_doubted("range", key, said.data):
            known = b""
        elif said.data[:shared] != known[:shared]:
            self.told.doubt("range", key, known)
            self.contradicts("other-range", kept, request, self.spell_bytes(known, request),
                             "A range stays as it was told, since nothing came between that may change it", LAYOUTS)
            known = b""
        elif answer is not None and answer != f"bytes {said.data.hex() or '-'}" and said.is_whole:
            self.own("range", kept, request, answer, "Its range is its own")
        if len(said.data) > len(known):
            self.told.ranges[key] = said.data

    def has_whole_ranges(self, kept, request):
        """Whether an answer is no longer than was asked for, as long as its number of subranges says, and no MIN is above its MAX."""
        said, control = kept.said, request.control
        if self.is_too_long(kept, request):
            return False
        if control is None or not said.is_whole:
            return True
        whole = 2 + 3 * control.width * little(said.data[:2])
        if len(said.data) != min(whole, request.length) or request.length >= 2 > len(said.data):
            is_own = control.name in OWN_WIDTH
            if not is_own:
                ranges = f"{counted(little(said.data[:2]), 'subrange')} of three numbers of {counted(control.width, 'byte')}"
                self.wrong("other-length", kept, request, counted(min(max(whole, 2), request.length), "byte"),
                           f"The answer hasn't the length of {ranges}", LAYOUTS)
            return is_own
        wrong = [(least, most) for least, most, _ in subranges(said.data, control) or [] if least > most]
        if wrong:
            self.wrong("min-above-max", kept, request, "no MIN above its MAX", f"MIN {wrong[0][0]} is above MAX {wrong[0][1]}",
                       VOLUMES if control.name == "volume" else LAYOUTS)
        return not wrong

    # ---- setting a control

    def set_cur(self, kept, request):
        key, answer = self.told.note(request), self.ask(request)
        if self.is_absent(kept, request, answer):
            if kept.said.kind != "stall":
                self.told.hold(key, None)
            return
        rule = answer[6:] if answer is not None and answer.startswith("stall ") else None
        if kept.said.kind == "stall":
            self.stalled(kept, request, key, rule)
            return
        if rule == "Q8":
            self.own("Q8", kept, request, "stall", "What was sent hasn't the control's length")
        elif rule == "Q9":
            self.own("Q9", kept, request, "stall", "The profile has no such value")
            self.alone("value", kept, request, "the program can't hold this value")
        if self.is_running_clock(request) and self.told.values.get(key) not in (None, kept.sent):
            self.own("Q10", kept, request, "stall", "In the profile no clock is set while a stream runs")
        self.was_set(request, key, None if rule == "Q8" else self.value_set(request, key))

    def is_running_clock(self, request):
        """Whether a clock is spoken of while a stream runs: between transfers the program has none that does."""
        return request.entity is not None and request.entity.kind in CLOCKS and self.told.is_running()

    def value_set(self, request, key):
        """The value that holds after a SET: what was sent, or unknown where it lies outside the device's own range, or off its steps."""
        number, ranges = request.number(request.sent), self.told.ranges_of(key)
        is_silence = number == SILENCE and request.control is not None and request.control.name == "volume"
        return request.sent if number is None or not ranges or is_silence or is_in(number, ranges) else None

    def was_set(self, request, key, data):
        """A control was set: what may follow of others is forgotten."""
        self.told.hold(key, data)
        if request.entity is None:
            return
        if request.entity.kind in CLOCKS:
            self.told.clocks_may_move(key)
            for interface, run in list(self.streams.running.items()):
                rate = self.told.rate_of(run.shape.clock, self.by_id)
                if rate != run.rate:
                    self.streams.begin(interface, run.setting, rate)
        elif request.entity.kind == "selector":
            self.told.sources_may_move(key)

    def stalled(self, kept, request, key, rule):
        """A SET that was stalled: of a value in the device's own range that is wrong, of another its own choice."""
        if rule is None and self.is_own_value(request, key):
            is_own = request.control.name != "mute"
            text = "A host may set the control to each value of its range" if is_own else "A host may set the control on and off"
            (self.contradicts if is_own else self.wrong)("stall", kept, request, "done", text, LAYOUTS)
            self.told.hold(key, None)
        elif rule is None and self.proved is not None and not self.is_running_clock(request):
            self.own("stall", kept, request, "done", "The profile has this value")

    def is_own_value(self, request, key):
        """Whether the device must take a value: one of its own range, one that it told, or on and off; a clock's while streams run it
        needn't."""
        number, ranges = request.number(request.sent), self.told.ranges_of(key)
        if number is None or not is_settable(request):
            return False
        if request.control.name == "mute":
            return number in (0, 1)
        if request.entity.kind in CLOCKS:
            is_plain = request.control.name == "frequency" and not any(one.kind == "clock_multiplier" for one in self.by_id.values())
            return is_plain and not self.told.may_run(self.counts) and bool(ranges) and is_in(number, ranges)
        is_known = request.sent in (self.told.values.get(key), self.told.starts.get(key))
        return request.control.name == "volume" and (is_known or bool(ranges) and is_in(number, ranges))

    # ---- descriptors and settings

    def get_descriptor(self, kept, request):
        said = kept.said
        at = next((block.place for block in self.blocks if block.kind == "configuration"), 0)
        wanted = self.descriptor[at:][:request.length]
        if said.kind == "stall":
            self.wrong("stall", kept, request, "the configuration's bytes", "The configuration descriptor can be read", DESCRIPTORS)
        elif self.is_too_long(kept, request):
            return
        elif said.is_whole and len(said.data) != len(wanted):
            self.wrong("other-length", kept, request, counted(len(wanted), "byte"),
                       "The answer has the lesser of wLength and the configuration's total", DESCRIPTORS)
        elif said.data != wanted[:len(said.data)]:
            at = next(at for at, (one, other) in enumerate(zip(said.data, wanted)) if one != other)
            self.contradicts("other-descriptor", kept, request, f"bytes {wanted.hex()}",
                             f"Byte {at} of the configuration is {said.data[at]:02x} here and {wanted[at]:02x} in the descriptor",
                             DESCRIPTORS)

    def get_interface(self, kept, request):
        known = self.told.settings.get(request.index)
        answer = None if self.proved is None else self.proved.ask_in_setting(request.setup, request.index, known or 0)
        if self.is_absent(kept, request, answer):
            return
        if kept.said.kind == "stall":
            if answer is not None:
                self.wrong("stall", kept, request, "its setting", "An interface tells its setting", STANDARD_REQUESTS)
        elif kept.said.kind == "overflow" or len(kept.said.data) != 1:
            self.wrong("other-length", kept, request, "1 byte", "A setting has one byte", STANDARD_REQUESTS)
        else:
            data = kept.said.data
            if known is not None and data[0] != known and not self.told.is_doubted("setting", request.index, data):
                self.told.doubt("setting", request.index, bytes([known]))
                self.contradicts("other-setting", kept, request, f"bytes {known:02x}", "The setting that was chosen has to hold", SETTINGS)
            self.told.settings[request.index] = data[0]

    def set_interface(self, kept, request):
        shape = self.streams.shapes.get((request.index, request.value))
        rate = None if shape is None else self.told.rate_of(shape.clock, self.by_id)
        are_held = self.proved is not None and self.hold_clocks()
        answer = self.ask(request)
        if answer == "done" and request.value:
            self.proved.ask_setting(request.index, 0)
        if self.is_absent(kept, request, answer):
            return
        is_beyond = shape is not None and (self.speed != "high" or answer == "stall Q12" or not are_held or rate is None)
        if is_beyond and answer is not None and rate is not None:
            self.alone("setting", kept, request, "the program can't run this setting at this rate")
        if kept.said.kind == "stall":
            if answer == "done" and not is_beyond and self.counts.get(request.index):
                self.wrong("stall", kept, request, "done", "A setting that is there, and fits the rate, can be chosen", SETTINGS)
            return
        if answer == "stall Q12":
            self.own("Q12", kept, request, "stall", "In the profile a setting has to fit the rate")
        self.told.settings[request.index] = request.value
        self.streams.begin(request.index, request.value, rate)

    def hold_clocks(self):
        """Brings the program's clocks to what the device told of its own; whether it holds all of that."""
        are_held = True
        for key, request in self.told.requests.items():
            known = self.told.values.get(key)
            if known and request.control is not None and request.control.element is not None and request.entity.kind in CLOCKS:
                are_held = (self.proved.has(request, known) or self.proved.hold(request, known)) and are_held
        return are_held


def is_settable(request):
    """Whether a host may set a played control of an entity, as its descriptor has it."""
    if request.entity is None or request.control is None or request.control.bits is None or request.control.element is None:
        return False
    channel = request.channel if request.entity.kind in ("feature", "effect") else 0
    return access_of(request.entity, request.control, channel) == "host-programmable"


def spell_ranges(ranges):
    return ", ".join(f"{least} to {most}" if least != most else str(least) for least, most, _ in ranges)
