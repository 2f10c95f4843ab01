"""The controls that the standard gives an entity (Audio Class 2.0, A.17): those that the profile plays, and all others.

Of each its name, the place of its two bits in a control word (None where nothing is claimed of it), and whether it may change by itself.
Nothing is claimed here of an effect unit, whose controls are those of its type."""
from controls import words_of

# By kind and selector.
OF_TERMINALS = {1: ("copy_protect", 0, False), 2: ("connector", 1, True), 3: ("overload", 2, True)}
CONTROLS_OF = {
    "clock_source": {1: ("frequency", 0, False), 2: ("validity", 1, True)},
    "clock_selector": {1: ("selector", 0, False)},
    "clock_multiplier": {1: ("numerator", 0, False), 2: ("denominator", 1, False)},
    "input_terminal": {**OF_TERMINALS, 4: ("cluster", 3, True), 5: ("underflow", 4, True), 6: ("overflow", 5, True),
                       7: ("latency", None, True)},
    "output_terminal": {**OF_TERMINALS, 4: ("cluster", None, True), 5: ("underflow", 3, True), 6: ("overflow", 4, True),
                        7: ("latency", None, True)},
    "mixer": {1: ("node", None, False), 2: ("cluster", 0, True), 3: ("underflow", 1, True), 4: ("overflow", 2, True),
              5: ("latency", None, True)},
    "selector": {1: ("selector", 0, False), 2: ("latency", None, True)},
    "feature": {1: ("mute", 0, False), 2: ("volume", 1, False), 3: ("bass", 2, False), 4: ("mid", 3, False), 5: ("treble", 4, False),
                6: ("graphic_equalizer", 5, False), 7: ("automatic_gain", 6, False), 8: ("delay", 7, False), 9: ("bass_boost", 8, False),
                10: ("loudness", 9, False), 11: ("input_gain", 10, False), 12: ("input_gain_pad", 11, False),
                13: ("phase_inverter", 12, False), 14: ("underflow", 13, True), 15: ("overflow", 14, True), 16: ("latency", None, True)},
}
OF_INTERFACES = {1: "active_setting", 2: "valid_settings", 3: "audio_data_format"}


def standard_name(kind, selector):
    """The standard's control with this selector, None where it has none, or where nothing is claimed."""
    known = CONTROLS_OF.get(kind, {}).get(selector)
    return None if known is None else known[0]


def moves_by_itself(kind, selector):
    """Whether a control may change without a host's doing; of what isn't known here nobody says that it may not."""
    known = CONTROLS_OF.get(kind, {}).get(selector)
    return known is None or known[2]


def bits_of(block, selector, channel):
    """The two bits that declare a control on a channel; None where nothing is claimed of them, -1 where the standard has no such control
    or the block has no such channel."""
    known = CONTROLS_OF.get(block.kind, {}).get(selector)
    if known is None:
        return -1 if block.kind in CONTROLS_OF else None
    if known[1] is None:
        return None
    words = words_of(block) if block.kind == "feature" else words_of(block)[:1]
    return words[channel] >> 2 * known[1] & 3 if channel < len(words) else -1
