"""Tests of tools/compose that a case can't be; tests/tools runs them."""
import os, re, subprocess, sys
from needs import PROGRAM, TOP, as_lines
from tooling import example, one_sentence, same, tool

HEADSET = "descriptor examples/headset.bin\n"


def compose(text, *words):
    return tool("compose", "-", *words, data=text.encode())


def refused(text, front, *sentences):
    """That a text is refused with these words, after what it printed."""
    done = compose(text)
    same((done.returncode, done.stdout.decode()), (1, front), text)
    for words in sentences:
        assert words in done.stderr.decode(), f"{text!r} is refused with {done.stderr.decode()!r}, wanted {words!r}"
    assert "Traceback" not in done.stderr.decode()


READY = "ready entities 7 streams 2 domains 1\n"


def test_a_script_goes_through_as_it_is(_):
    """Lines of the script are lines of the text, and the transcript is the program's."""
    for name in ("stream.script", "monitor.script"):
        data = example(f"examples/{name}")
        lines = [line for line in data.decode().split("\n") if line and not line.startswith("#")]
        same(tool("compose", f"examples/{name}", "--script").stdout.decode(), "".join(line + "\n" for line in lines), name)
    wanted = subprocess.run([PROGRAM, "run"], input=example("examples/stream.script"), stdout=subprocess.PIPE).stdout
    same(tool("compose", "examples/stream.script").stdout, wanted, "the transcript")


def test_the_words_say_the_same_as_the_letters(_):
    """The example's text and the example's script are one run."""
    text = [line for line in tool("compose", "examples/stream.text", "--script").stdout.decode().split("\n") if line[:1] not in ("#", "d")]
    script = [line for line in example("examples/stream.script").decode().split("\n") if line[:1] not in ("#", "d")]
    at = (text.index("t 1 noise 1"), script.index("t 1 noise 1"))
    same(at[0], at[1], "the tone's line")
    same(text, script, "stream.text")


def test_the_file_is_looked_for_beside_the_text(folder):
    with open(os.path.join(folder, "device.bin"), "wb") as file:
        file.write(example("examples/minimal.bin"))
    with open(os.path.join(folder, "text"), "w") as file:
        file.write("descriptor device.bin\n")
    done = tool("compose", os.path.join(folder, "text"), "--script")
    same(done.stdout, b"# descriptor device.bin\n" + as_lines(example("examples/minimal.bin")) + b"g\n", "compose")


def test_long_times_are_several_lines(_):
    made = compose("wait 2.5 s\nlose in 2 for 1001 ms\n", "--script").stdout.decode()
    same(made, "# wait 2.5 s\nm 8000\nm 8000\nm 4000\n# lose in 2 for 1001 ms\nm 8000 i2\nm 8 i2\n", "compose")


def test_start_takes_the_first_setting_above_0(_):
    made = compose(HEADSET + "start 2\nstart 2 3\nstop 2\n", "--script").stdout.decode().split("\n")
    same([line for line in made if line.startswith("c ")], ["c 010b010002000000", "c 010b030002000000", "c 010b000002000000"], "compose")


def test_texts_that_are_refused_before_a_run(_):
    for text, words in (
            ("volum 3 1 -10 dB", "'volum' is no word of this text and no letter of the script; is 'volume' meant?"),
            ("volume 3 1 -10", "the words of 'volume' are: volume ENTITY CHANNEL NUMBER dB"),
            ("volume 3 1 -10.3 dB", "-10.3 dB isn't a multiple of 1/256 dB"),
            ("volume 3 left 0 dB", "a channel (master, or 1, 2 ..) is wanted as a whole number, and 'left' is none"),
            ("mute 3 1 yes", "the words of 'mute' are: mute ENTITY CHANNEL on"),
            ("wait 0.3 ms", "0.3 ms isn't a whole number of microframes"),
            ("wait 0 ms", "0 ms is 0 microframes: 1 to 28800000"),
            ("wait 2 h", "'h' is no unit of time here: ms, s or microframes"),
            ("wait", "the words of 'wait' are: wait NUMBER ms"),
            ("lose out 1", "the words of 'lose' are: lose out INTERFACE for NUMBER"),
            ("lose packet 1 for 8", "the words of 'lose' are"),
            ("start 9", "interface 9 is no streaming interface of the descriptor in front"),
            ("start 300 1", "an interface is 0 to 255, and 300 isn't"),
            ("clock 1 fast", "the words of 'clock' are: clock CLOCK NUMBER ppm"),
            ("detail 3", "the detail is 0 to 2, and 3 isn't"),
            ("descriptor no_such.bin", "no_such.bin can't be read (No such file or directory)")):
        one_sentence(compose(HEADSET + "wait 1 ms\n\n" + text + "   # why\n"), 1, f"line 4 of -, '{text}   # why': ")
        one_sentence(compose(HEADSET + "wait 1 ms\n\n" + text + "   # why\n"), 1, words)
    one_sentence(tool("compose", "examples/headset.bin"), 1, "is no text: lines of words are wanted")


def test_refused_lines_are_told_with_their_line(_):
    """A line that the program refuses: the text's line, what it makes, the rule and its sentence, and what is there."""
    refused(HEADSET + "\nclock 9 10 ppm # no such\n", READY,
            "line 3 of -, 'clock 9 10 ppm # no such', is refused by S6: it makes 'k 9 10'; ", "\n  Clocks that terminals name here: 1.\n")
    refused(HEADSET + "j 2 none\n", READY, "line 2 of -, 'j 2 none', is refused by S6: ", "Input jacks here: 5.")
    refused(HEADSET + "lose out 2 for 8\n", READY, "it makes 'm 8 o2'", "Interfaces that carry a stream to the device here: 1;")
    refused(HEADSET + "volume 3 master 0 dB\n", READY, "Elements here: rate.1.0, mute.3.0, volume.3.1, volume.3.2, mute.6.0, volume.6.1.")
    refused(HEADSET + "volume 3 1 128 dB\n", READY, "is refused by S7", "The bytes of volume.3.1 hold -32768 to 32767.")
    refused(HEADSET + "a 1 1 2 3\n", READY, "is refused by S7", "A frame of interface 1 has 2 samples, and 3 are there.")
    refused(HEADSET + "k 1 100001\n", READY, "is refused by S4", "CLOCK is 0 to 255, PPM -100000 to 100000.")
    refused(HEADSET + "m 1 x1\n", READY, "is refused by S3", "The line's words are: m COUNT, and up to 24 marks as o1, i2 or f1.")
    refused(HEADSET + "descriptor examples/headset.bin\n", READY, "is refused by S5", "The device runs already")
    refused("detail 1\n" + HEADSET, "", "line 1 of -, 'detail 1', is refused by S5: it makes 'v 1'; ", "The descriptor comes first")
    refused("# nothing\n", "", "- is refused by S8: ", "A line 'descriptor FILE' gives the descriptor.")


def test_a_refused_descriptor_is_told_with_its_line(folder):
    path = os.path.join(folder, "broken.bin")
    with open(path, "wb") as file:
        file.write(example("examples/headset.bin").replace(bytes.fromhex("1224060302030000"), bytes.fromhex("1224060302020000")))
    refused(f"\ndescriptor {path}\nwait 1 ms\n", "", f"line 2 of -, 'descriptor {path}': the descriptor breaks G4, at 78, which wants: ")


def test_docs_have_each_word_and_letter(_):
    """docs/TOOLS.md and --help have each word of a text, and docs/SCRIPT.md each letter that goes through."""
    code = "from composing import FORMS, LINES; print(*FORMS); print(*LINES)"
    told = subprocess.run([sys.executable, "-B", "-c", code], stdout=subprocess.PIPE, cwd=os.path.join(TOP, "tools/lib"))
    told = told.stdout.decode().split("\n")
    words = set(told[0].split())
    table = example("docs/TOOLS.md").decode().partition("| Line | What it makes of it |")[2].partition("\n\n")[0]
    same(set(re.findall(r"^\| `(\w+)", table, re.MULTILINE)), words, "docs/TOOLS.md")
    said = tool("compose", "--help").stdout.decode()
    same(set(re.findall(r"^  (\w+)", said, re.MULTILINE)), words, "--help")
    table = example("docs/SCRIPT.md").decode().partition("| Line | Example |")[2].partition("\n\n")[0]
    same(set(re.findall(r"^\| `(\w)", table, re.MULTILINE)), set(told[1].split()), "docs/SCRIPT.md")


def test_what_people_write(_):
    """Tabs, several spaces, carriage returns, a mark of the bytes' order, and no newline at the end."""
    made = compose("\ufeffwait\t1  ms\r\n  v 1 \r\n\tq\t# why\nstop 1", "--script").stdout.decode()
    same(made, "# wait 1 ms\nm 8\nv 1\nq\n# stop 1\nc 010b000001000000\n", "compose")


def test_levels_alone(_):
    """Six frames come and none is taken while the stream primes; reports say the nominal value, and a lost one is said to be lost."""
    text = HEADSET + "detail 0\nstart 1\nwait 7 microframes\nlose report 1 and out 1 for 1\nwait 1 microframe\n"
    done = compose(text, "--only", "levels")
    rows = ["microframe        ms  stream  level  target  host's value  what happened"]
    for at in range(1, 10):
        rows.append(f"{at:10} {at / 8:9.3f}       1 {6 * at:6}       -      6.000000")
    rows[8] += "  packet lost, report 6.000000 lost"
    same((done.returncode, done.stdout.decode(), done.stderr), (0, "\n".join(rows) + "\n", b""), "compose")
    done = compose(HEADSET + "wait 1 ms\nclock 9 0 ppm\n", "--only", "levels")
    assert done.returncode == 1 and done.stdout == b"" and b"line 3 of -" in done.stderr, done.stderr
    one_sentence(compose(HEADSET, "--only", "rates"), 1, "--only levels is what there is")
    one_sentence(compose(HEADSET + "wait 1 ms\n", "--only", "levels"), 1, "- tells of no stream that ran: the text has to start a stream")


def test_levels_of_a_long_service_interval(_):
    """A packet of 48 frames comes every 8 microframes, and the stream primes with the first level of 512 or more."""
    text = "descriptor examples/f_uac2-default.bin\nstart 1\nwait 12 ms\n"
    rows = compose(text, "--only", "levels").stdout.decode().split("\n")[1:-1]
    wanted = [[str(8 * at), f"{at:.3f}", "1", str(min(48 * at, 528)), "528" if at >= 11 else "-", "6.000000"] for at in range(1, 13)]
    same([row.split()[:6] for row in rows], wanted, "compose")
