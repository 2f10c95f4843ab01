"""The rules in words, in one table: tools, tests and docs read it from here. `python3 tools/lib/rules.py --write` writes it into docs/.

RULES has a sentence for each rule: of G and U what it wants, of Q when a request is stalled, of S what is wrong with a line.
CASES has each thing that is refused or warned of: under which rule, whose it is, and where that is said."""
import os, sys

STANDARD, LIMIT, WARNING = "standard", "limit", "warning"

RULES = {
    "G1": "each block is there whole, and a configuration is there",
    "G2": "a block's length is at least 2, since it counts its own length and type",
    "G3": "each block has the length of its layout",
    "G4": "fields have values that are allowed: no control's two bits are 10, the version is 2.0, there are pins, a sample has 1 to 4 "
          "bytes and no more bits than these, an isochronous endpoint is one that high speed has",
    "G5": "the configuration's total is where its blocks end, and the header's total is where the header and the entities behind it end",
    "G6": "blocks stand in the standard's order, the header first in the control interface, and interface numbers and settings in turn",
    "G7": "an audio association stands in front of the audio interfaces, and the control interface is the first behind it",
    "G8": "the entities are of the kinds that are taken here: subtypes 2 to 7 and 10 to 12",
    "G9": "there is one audio association, and one control interface",
    "U1": "no id is 0",
    "U2": "no two entities have the same id",
    "U3": "what a unit or an output terminal names as its source is there",
    "U4": "what a unit or an output terminal names as its source puts out a signal",
    "U5": "what a terminal names as its clock, and what a clock entity names, is a clock entity",
    "U6": "no way along the signal's sources leads from an entity back to it",
    "U7": "no way along the clocks' sources leads from a clock entity back to it",
    "U8": "who has channels of its own has 1 to 32 and no more locations than channels",
    "U9": "a mixer's bitmap has the least number of bytes for its nodes; a feature has a word for the master and one for each channel, an "
          "effect one more at most",
    "U10": "the pins of a selector have equally many channels",
    "U11": "an output terminal has the clock of every input terminal behind it",
    "U12": "every General of a streaming interface links to a USB terminal, all of one interface to the same, and no earlier interface has "
           "it",
    "U13": "a setting has the endpoints that it says; setting 0 has none; the first carries data in the terminal's direction, the second "
           "feedback in the other",
    "U14": "at most 256 nodes, 256 input channels and 8 clocks; 8 streaming interfaces, 16 settings of each",
    "Q1": "no such request",
    "Q2": "no such interface",
    "Q3": "no such entity",
    "Q4": "no such control, or none with ranges, or a descriptor other than 0x0200",
    "Q5": "the channel is in range and the control isn't declared (its bits are 00; a mixer's nodes always are)",
    "Q6": "the channel is out of range",
    "Q7": "it can only be read",
    "Q8": "the lengths don't fit",
    "Q9": "the value isn't legal",
    "Q10": "a clock's value would change while a setting isn't 0",
    "Q11": "no such setting",
    "Q12": "the setting can't run at the rate now",
    "S1": "the line has more than 4,096 bytes",
    "S2": "the first word is none of these letters",
    "S3": "the words aren't as in the table, or a number or HEX is spelt otherwise",
    "S4": "the spelling is right and a number is out of range",
    "S5": "`d` or `g` after `g`, or any other line than an empty or `#` line before it",
    "S6": "`h` names no element; `j` names no input jack (a USB terminal is none), `k` no domain, `a`, `t`, and the marks `o` and `f` no "
          "interface that carries a stream to the device and links to a terminal, `i` none that carries one from it",
    "S7": "the samples of `a` aren't whole frames of the linked terminal's channels, or the value of `h set` doesn't fit the bytes of the "
          "element's control",
    "S8": "the input ends and no `g` was done; its number is that of the last line plus 1",
}

# Each case that is refused: its name, its rule, what it is, whose it is, and where that is said. Of a limit the last is why it is ours.
REFUSED = (
    ("text", "G1", "text where bytes are wanted", STANDARD, "USB 2.0, 9.5: a descriptor is bytes"),
    ("cut", "G1", "the input ends within a block", STANDARD, "USB 2.0, 9.5"),
    ("no-configuration", "G1", "no configuration is there", STANDARD, "USB 2.0, 9.6.3"),
    ("no-length", "G2", "a length of 0 or 1", STANDARD, "USB 2.0, 9.5"),
    ("padding", "G2", "zeros behind the configuration's total", LIMIT, "nothing is taken behind the total"),
    ("audio-1.0", "G3", "a block in the form of audio 1.0", STANDARD, "Audio Class 2.0, 4.7.2, 4.9 and 4.10"),
    ("too-short", "G3", "a block shorter than its layout", STANDARD, "USB 2.0, 9.5"),
    ("wrong-length", "G3", "a length that isn't the block's: the next block begins elsewhere", STANDARD, "USB 2.0, 9.5"),
    ("too-long", "G3", "a block longer than its layout", LIMIT, "USB 2.0, 9.5, has a host pass over the bytes that are too many"),
    ("effect-length", "G3", "an effect unit of another length", LIMIT, "its layout is this project's own"),
    ("no-subtype", "G3", "a class block without a subtype", STANDARD, "USB 2.0, 9.5"),
    ("version", "G4", "a header of another version", STANDARD, "Audio Class 2.0, 4.7.2"),
    ("no-pins", "G4", "a mixer or selector without pins", STANDARD, "Audio Class 2.0, 4.7.2"),
    ("sample-bytes", "G4", "a sample of no or more than 4 bytes", STANDARD, "Audio Data Formats 2.0, 2.3.1.6"),
    ("sample-bits", "G4", "more bits than a sample's bytes hold", STANDARD, "Audio Data Formats 2.0, 2.3.1.6"),
    ("no-bits", "G4", "a sample of 0 bits", LIMIT, "no clause is known that forbids it"),
    ("interval", "G4", "an isochronous endpoint's interval that isn't 1 to 16", STANDARD, "USB 2.0, 9.6.6"),
    ("packet", "G4", "an isochronous packet of more than 1,024 bytes", STANDARD, "USB 2.0, 5.6.3 and 9.6.6"),
    ("transactions", "G4", "bits 12 and 11 of a packet's size that are 11", STANDARD, "USB 2.0, 9.6.6"),
    ("control-bits", "G4", "a control's two bits that are 10", STANDARD, "Audio Class 2.0, 4.7.2 and 4.9.2"),
    ("enable-bits", "G4", "an effect's enable whose two bits are 10", LIMIT, "its place is this project's own"),
    ("total", "G5", "a configuration's total that isn't where its blocks end", STANDARD, "USB 2.0, 9.6.3"),
    ("behind-total", "G5", "another configuration behind the first", LIMIT, "one configuration is taken"),
    ("header-total", "G5", "a header's total that isn't where its entities end", STANDARD, "Audio Class 2.0, 4.7.2"),
    ("second-header", "G5", "a second header in the control interface", STANDARD, "Audio Class 2.0, 4.7.2"),
    ("list-broken", "G5", "a block that is no entity within the list of entities", LIMIT, "no clause is known that forbids it"),
    ("not-first", "G6", "another block in front of the configuration", STANDARD, "USB 2.0, 9.4.3"),
    ("setting-missing", "G6", "a streaming interface without setting 0, or a gap in its settings", STANDARD, "USB 2.0, 9.6.5"),
    ("settings-order", "G6", "settings that aren't in turn, or stand apart", LIMIT, "no clause is known that says their order"),
    ("interface-again", "G6", "an interface number that another interface has", STANDARD, "USB 2.0, 9.6.5"),
    ("no-header", "G6", "a control interface without its header", STANDARD, "Audio Class 2.0, 4.7.2"),
    ("no-interface", "G6", "a class block in front of every interface", STANDARD, "USB 2.0, 9.5"),
    ("no-general", "G6", "a setting whose class blocks or endpoints have no General in front", STANDARD, "Audio Class 2.0, 4.9.2"),
    ("class-first", "G6", "a class endpoint that isn't right behind its endpoint", STANDARD, "USB 2.0, 9.5"),
    ("companion", "G6", "a companion block of super speed in front of a class endpoint", LIMIT, "high speed alone is taken"),
    ("third-endpoint", "G6", "a third endpoint in a setting", LIMIT, "two are taken"),
    ("block-twice", "G6", "a second General or Type I block in a setting", LIMIT, "no clause is known that forbids it"),
    ("setting-0-general", "G6", "an endpoint in a setting 0, which has no General", STANDARD, "USB 2.0, 5.6.3"),
    ("late-entity", "G6", "an entity behind a block that is none", LIMIT, "no clause is known that forbids it"),
    ("order", "G6", "any other order", LIMIT, "no clause is known that forbids it"),
    ("no-association", "G7", "audio interfaces without an association in front", STANDARD, "Audio Class 2.0, 4.6"),
    ("association-codes", "G7", "an association of another class or protocol in front of them", STANDARD, "Audio Class 2.0, 4.6"),
    ("control-protocol", "G7", "a control interface of another protocol behind the association", STANDARD, "Audio Class 2.0, 4.7.1"),
    ("control-not-first", "G7", "another interface first behind the association", STANDARD, "Audio Class 2.0, 4.7"),
    ("behind-association", "G7", "a block that is no interface between the association and the control interface", LIMIT,
     "no clause is known that forbids it"),
    ("other-version", "G7", "an audio function of another version alone", LIMIT, "version 2.0 is taken"),
    ("no-audio", "G7", "no audio function at all", LIMIT, "an audio function is taken"),
    ("unit-kind", "G8", "a processing, extension or rate converter unit", LIMIT,
     "the standard has these units: 4.7.2.9, 4.7.2.11 and 4.7.2.12"),
    ("unknown-kind", "G8", "a subtype that the standard doesn't have", STANDARD, "Audio Class 2.0, A.9"),
    ("second-function", "G9", "a second audio function", LIMIT, "one function is taken; the standard allows several"),
    ("second-control", "G9", "a second control interface in a function, or a second setting of it", STANDARD, "Audio Class 2.0, 4.7.1"),
    ("id-0", "U1", "an entity of id 0", STANDARD, "Audio Class 2.0, 4.7.2"),
    ("id-twice", "U2", "an id that an earlier entity has", STANDARD, "Audio Class 2.0, 3.13"),
    ("source-missing", "U3", "a source that isn't there", STANDARD, "Audio Class 2.0, 4.7.2.5 to 4.7.2.10"),
    ("source-silent", "U4", "a source that puts out no signal", STANDARD, "Audio Class 2.0, 3.13.2 and 3.13.10 to 3.13.12"),
    ("clock-missing", "U5", "a clock that isn't there, or is no clock entity", STANDARD, "Audio Class 2.0, 4.7.2.2 to 4.7.2.5"),
    ("signal-loop", "U6", "a signal that feeds itself", LIMIT, "no clause is known that forbids it"),
    ("clock-loop", "U7", "a clock that feeds itself", LIMIT, "no clause is known that forbids it"),
    ("locations", "U8", "more locations than channels", STANDARD, "Audio Class 2.0, 4.1"),
    ("raw-data", "U8", "more locations than channels by bit 31 alone", LIMIT, "all 32 bits count alike here"),
    ("no-channels", "U8", "no channel", LIMIT, "no clause is known that forbids it"),
    ("many-channels", "U8", "more than 32 channels", LIMIT, "32 are taken"),
    ("mixer-bits", "U9", "a mixer's bitmap of another size", STANDARD, "Audio Class 2.0, 4.7.2.6"),
    ("feature-words", "U9", "more or fewer control words of a feature", STANDARD, "Audio Class 2.0, 4.7.2.8"),
    ("feature-1.0", "U9", "a feature in the form of audio 1.0", STANDARD, "Audio Class 2.0, 4.7.2.8"),
    ("effect-words", "U9", "more or fewer control words of an effect", LIMIT, "its layout is this project's own"),
    ("pins-differ", "U10", "a selector's pins of different channels", STANDARD, "Audio Class 2.0, 3.13.4 and 4.7.2.7"),
    ("other-clock", "U11", "an output terminal on another clock than an input terminal behind it", LIMIT,
     "the standard allows clocks that run alike"),
    ("link-missing", "U12", "a link to no terminal", STANDARD, "Audio Class 2.0, 4.9.2"),
    ("link-elsewhere", "U12", "a link to what is no USB terminal", STANDARD, "Audio Class 2.0, 4.9.2"),
    ("link-taken", "U12", "a link to a terminal that an earlier interface has", LIMIT, "no clause is known that forbids it"),
    ("link-wrong-way", "U12", "the same, where an endpoint goes the other way than the terminal", STANDARD, "Audio Class 2.0, 4.9.2"),
    ("links-differ", "U12", "settings of one interface with different links", LIMIT, "no clause is known that forbids it"),
    ("endpoint-count", "U13", "another number of endpoints than a setting says", STANDARD, "USB 2.0, 9.6.5"),
    ("setting-0-endpoint", "U13", "a setting 0 with endpoints that take part of the bus", STANDARD, "USB 2.0, 5.6.3"),
    ("setting-0-idle", "U13", "a setting 0 with other endpoints", LIMIT, "no clause is known that forbids it"),
    ("data-endpoint", "U13", "a first endpoint that isn't isochronous data in the terminal's direction", STANDARD,
     "Audio Class 2.0, 4.10.1.1"),
    ("feedback-first", "U13", "a feedback endpoint in front of the data endpoint", LIMIT, "no clause is known that says their order"),
    ("feedback-endpoint", "U13", "a second endpoint that isn't feedback in the other direction", STANDARD,
     "Audio Class 2.0, 4.10.2.1; USB 2.0, 9.6.6"),
    ("nodes", "U14", "a mixer of more than 256 nodes", LIMIT, "256 are taken"),
    ("inputs", "U14", "more than 256 input channels", LIMIT, "256 are taken"),
    ("clocks", "U14", "a ninth clock", LIMIT, "8 are taken"),
    ("interfaces", "U14", "a ninth streaming interface", LIMIT, "8 are taken"),
    ("settings", "U14", "a seventeenth setting", LIMIT, "16 are taken"),
)

# What a sound descriptor is warned of: the name, what it is, whose it is, and where that is said.
WARNED = (
    ("same-address", "two endpoints of one address in a setting, or in two interfaces", WARNING, "USB 2.0, 9.6.6"),
    ("association-first", "an association whose first interface isn't that of its function", WARNING, "Audio Class 2.0, 4.6"),
    ("association-count", "an association that counts other interfaces than its function has", WARNING, "Audio Class 2.0, 4.6"),
    ("association-subclass", "an audio association whose subclass isn't 0", WARNING, "Audio Class 2.0, 4.6"),
    ("interface-count", "a configuration that counts other interfaces than it has", WARNING, "USB 2.0, 9.6.3"),
    ("reserved-bit", "bit 7 of a configuration's attributes that is 0", WARNING, "USB 2.0, 9.6.3"),
    ("control-setting", "a control interface whose setting isn't 0", WARNING, "Audio Class 2.0, 4.7.1"),
    ("control-endpoints", "a control interface with other endpoints than it says", WARNING, "USB 2.0, 9.6.5"),
    ("class-endpoint", "a data endpoint without its class endpoint", WARNING, "Audio Class 2.0, 4.10.1.2"),
    ("no-format", "a setting with endpoints that says no format", WARNING, "Audio Class 2.0, 4.9.2 and 4.9.3"),
    ("hidden-stream", "a streaming interface of another protocol than its function", WARNING, "Audio Class 2.0, 4.9.1"),
    ("unlinked-terminal", "a USB terminal that no interface links to", WARNING, "Audio Class 2.0, 4.9.2"),
    ("associated-terminal", "an associated terminal that isn't there", WARNING, "Audio Class 2.0, 4.7.2.4 and 4.7.2.5"),
    ("general-locations", "a General with other locations than its terminal, or more than its channels", WARNING,
     "Audio Class 2.0, 4.1 and 4.9.2"),
    ("swapped-controls", "control words whose bytes look swapped", WARNING, "USB 2.0, 8.1"),
    ("unplayed-bits", "two bits 10 of a control that isn't played here", WARNING, "Audio Class 2.0, 4.7.2"),
    ("packet-size", "a packet's size that its additional transactions don't allow", WARNING, "USB 2.0, 9.6.6"),
    ("feedback-size", "a feedback endpoint of fewer than 4 bytes", WARNING, "USB 2.0, 5.12.4.2"),
    ("fixed-writable", "a fixed clock whose frequency a host may set", WARNING, "Audio Class 2.0, 4.7.2.1"),
    ("speed", "a device of another speed than high speed", WARNING, "the file speed beside it"),
    ("cannot-run", "a stream that no rate can run here", LIMIT, "docs/STREAMS.md has what can run"),
    ("super-speed", "a companion block of super speed", LIMIT, "judged by the rules of high speed"),
)

PAGES = {"DESCRIPTORS.md": "G", "TOPOLOGY.md": "U"}
WHOSE = {STANDARD: "the standard's", LIMIT: "our limit", WARNING: "warning"}


class Case:
    """A thing that is refused or warned of."""

    def __init__(self, name, rule, what, kind, said):
        self.name, self.rule, self.what, self.kind, self.said = name, rule, what, kind, said


CASES = {row[0]: Case(*row) for row in REFUSED}
CASES.update({row[0]: Case(row[0], row[0], *row[1:]) for row in WARNED})


def rows_of_rules(letter):
    """What each rule wants, as a table of docs/."""
    yield from ("| Rule | What it wants |", "|---|---|")
    yield from (f"| {rule} | {sentence} |" for rule, sentence in RULES.items() if rule[0] == letter)


def rows_of_cases(letter):
    """Whose each refusal is, as a table of docs/."""
    yield from ("| Rule | What is refused | Whose | Said by, or why it is ours |", "|---|---|---|---|")
    yield from (f"| {case.rule} | {case.what} | {WHOSE[case.kind]} | {case.said} |" for case in CASES.values() if case.rule[0] == letter)


def rows_of_warnings():
    yield from ("| Name | What it is | Kind | Said by |", "|---|---|---|---|")
    yield from (f"| `{row[0]}` | {row[1]} | {row[2]} | {row[3]} |" for row in WARNED)


def tables():
    """The tables that docs/ has from here: the page, the table's name, its lines."""
    for page, letter in PAGES.items():
        yield page, "rules", list(rows_of_rules(letter))
        yield page, "refusals", list(rows_of_cases(letter))
    yield "TOOLS.md", "warnings", list(rows_of_warnings())


def with_table(text, name, lines):
    """A page's text with a table in its place, which is marked by two comments; as it is where they aren't there."""
    begin, end = f"<!-- {name}, written by tools/lib/rules.py --write -->\n", f"\n<!-- end of {name} -->"
    front, mark, rest = text.partition(begin)
    _, last, back = rest.partition(end)
    return front + mark + "\n".join(lines) + last + back if mark and last else text


def main():
    folder = os.path.join(os.path.dirname(os.path.realpath(__file__)), "../../docs")
    for page, name, lines in tables():
        path = os.path.join(folder, page)
        with open(path, encoding="utf-8") as file:
            text = file.read()
        written = with_table(text, name, lines)
        if written != text and "--write" in sys.argv[1:]:
            with open(path, "w", encoding="utf-8") as file:
                file.write(written)
        print(f"{page}, {name}: {'as it is' if written == text else 'written' if '--write' in sys.argv[1:] else 'differs'}")


if __name__ == "__main__":
    main()
