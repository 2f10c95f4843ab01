"""Tests of tools/plot and tools/draw, which tests/tools runs. A drawing is read back: the numbers on its axes say what its curves say."""
import os, re, subprocess, xml.dom.minidom
from xml.etree import ElementTree
from needs import PROGRAM, TOP, as_lines, why_missing
from tooling import example, need, one_sentence, same, tool

SVG = "{http://www.w3.org/2000/svg}"
PNG = b"\x89PNG\r\n\x1a\n"


def transcript():
    """A stream of 44 microframes that primes at the 43rd, with a lost packet and a lost report, and runs dry once."""
    text, level = "ready entities 7 streams 2 domains 1\nc done\n", 0
    for at in range(1, 45):
        level += 6
        text += f"u {at}\no 1 6 {'lost' if at == 10 else 'ok'}\n" + ("under 1\n" if at == 44 else "")
        text += f"l 1 {level} {258 if at >= 43 else '-'}\n"
        if at % 8 == 0:
            text += f"f 1 00060000 {'lost' if at == 16 else 'ok'}\n"
    return text.encode()


class Panel:
    """A frame of a drawing, with what its axes say of a place."""

    def __init__(self, frame, texts, times):
        self.left, self.top = float(frame.get("x")), float(frame.get("y"))
        self.right, self.bottom = self.left + float(frame.get("width")), self.top + float(frame.get("height"))
        at = [(float(one.get("y")) - 4, float(one.text)) for one in texts if one.get("text-anchor") == "end" and self.is_beside(one)]
        (y, value), (other, more) = at[0], at[-1]
        (x, time), (right, late) = times[0], times[-1]
        self.value_of = lambda place: value + (place - y) * (more - value) / (other - y)
        self.time_of = lambda place: time + (place - x) * (late - time) / (right - x)
        self.caption = next("".join(one.itertext()) for one in texts if float(one.get("y")) == self.top - 5)

    def is_beside(self, text):
        return self.top - 1 <= float(text.get("y")) - 4 <= self.bottom + 1 and re.fullmatch(r"-?[\d.]+", text.text or "")

    def has(self, y):
        return self.top - 1 <= y <= self.bottom + 1


class Drawing:
    """A drawing's panels, and by panel its curves: (colour, points), and its dots."""

    def __init__(self, data):
        self.root = ElementTree.fromstring(data)
        self.texts = list(self.root.iter(SVG + "text"))
        bottom = max(float(one.get("y")) for one in self.texts)
        times = [(float(one.get("x")), float(one.text)) for one in self.texts
                 if one.get("text-anchor") == "middle" and float(one.get("y")) == bottom]
        self.panels = [Panel(one, self.texts, times) for one in self.root.iter(SVG + "rect") if one.get("x")]

    def said(self):
        return ["".join(one.itertext()) for one in self.texts]

    def panel(self, caption):
        return next(panel for panel in self.panels if panel.caption == caption)

    def read(self, panel, places):
        return [(round(panel.time_of(x), 1), panel.value_of(y)) for x, y in places]

    def curves(self, caption):
        """The curves of a panel as they read: lists of (microframe, value), by colour."""
        panel, found = self.panel(caption), {}
        for one in self.root.iter(SVG + "polyline"):
            places = [tuple(map(float, point.split(","))) for point in one.get("points").split(" ")]
            if panel.has(places[0][1]):
                found.setdefault(one.get("stroke"), []).append(self.read(panel, places))
        return found

    def dots(self, caption):
        panel = self.panel(caption)
        paths = [re.findall(r"M([\d.]+) ([\d.]+)h0", one.get("d")) for one in self.root.iter(SVG + "path") if "h0" in one.get("d")]
        return [self.read(panel, [(float(x), float(y)) for x, y in path]) for path in paths if panel.has(float(path[0][1]))]

    def marks(self, name):
        """The microframes of a row of marks."""
        label = next(one for one in self.texts if one.text == name)
        for one in self.root.iter(SVG + "path"):
            strokes = re.findall(r"M([\d.]+) ([\d.]+)v8", one.get("d"))
            if strokes and float(strokes[0][1]) == float(label.get("y")) - 8:
                return [round(self.panels[0].time_of(float(x))) for x, _ in strokes]
        return []


def near(told, wanted, of, by=0.6):
    """That curves have the same points, but for what a drawing rounds."""
    same(len(told), len(wanted), f"the number of points of {of}")
    for (time, value), (other, more) in zip(told, wanted):
        assert abs(time - other) <= 0.2 and abs(value - more) <= by, f"{of}: {(time, value)}, wanted {(other, more)}"


def boxes(drawing):
    """About where each text stands: left, top, right, bottom."""
    for one in drawing.texts:
        words, size = "".join(one.itertext()), float(one.get("font-size"))
        width = 0.56 * size * len(words)
        left = float(one.get("x")) - {"start": 0, "middle": width / 2, "end": width}[one.get("text-anchor")]
        yield words, left, float(one.get("y")) - 0.75 * size, left + width, float(one.get("y"))


def plotted(data, *words):
    done = tool("plot", "-", *words, data=data)
    same((done.returncode, done.stderr), (0, b""), "plot")
    return Drawing(done.stdout)


def run(script):
    return subprocess.run([PROGRAM, "run"], input=script, stdout=subprocess.PIPE).stdout


# ---- plot

def test_plot_says_what_the_transcript_says(_):
    drawing = plotted(transcript())
    said = drawing.said()
    for words in ("stream 1, to the device", "1 packet lost, 1 report lost, the ring ran empty", "microframes", "ms"):
        assert words in said, f"no text {words!r} in {said}"
    levels = drawing.curves("level and target, frames")
    near(levels["#1f5fa8"][0], [(at, 6 * at) for at in range(1, 45)], "the level", 1)
    near(levels["#c8741a"][0], [(43, 258), (44, 258)], "the target", 1)
    near(drawing.curves("level less target, frames")["#1f5fa8"][0], [(43, 0), (44, 6)], "level less target", 0.1)
    same([drawing.marks(name) for name in ("packet lost", "report lost", "ran empty")], [[10], [16], [44]], "marks")


def test_lost_reports_are_no_points(_):
    drawing = plotted(transcript())
    caption = "the host's value and reports that came, frames in a microframe"
    near(drawing.dots(caption)[0], [(at, 6) for at in (8, 24, 32, 40)], "reports", 0.001)
    near(drawing.curves(caption)["#333"][0][:1] + drawing.curves(caption)["#333"][0][-1:], [(1, 6), (44, 6)], "the value", 0.001)


def test_the_value_in_force_changes_behind_its_report(_):
    """Reports 6, then 6.5 in microframe 16, then 7 lost in 24: the value is 6.5 from 17 on."""
    text = "".join(f"u {at}\nl 1 {at} -\n" + {8: "f 1 00060000 ok\n", 16: "f 1 00068000 ok\n", 24: "f 1 00070000 lost\n"}.get(at, "")
                   for at in range(1, 31))
    curve = plotted(text.encode()).curves("the host's value and reports that came, frames in a microframe")["#333"][0]
    near(curve[:1] + curve[-3:], [(1, 6), (17, 6), (17, 6.5), (30, 6.5)], "the value", 0.01)
    assert all(value == curve[0][1] for _, value in curve[:-2]), "the value is 6 up to its change"


def test_no_value_is_told_where_the_detail_came_late(_):
    """The stream is primed where the transcript begins, so what the host goes by is known from the first report that came on."""
    text = "".join(f"u {at}\nl 1 258 258\n" + ("f 1 00060400 ok\n" if at == 48 else "") for at in range(41, 61))
    curve = plotted(text.encode()).curves("the host's value and reports that came, frames in a microframe")["#333"][0]
    near(curve, [(49, 6.015625), (60, 6.015625)], "the value", 0.001)


def test_curves_are_parted_where_a_stream_begins_anew(_):
    """Ten microframes, five without the stream, and ten more from an empty ring on."""
    text = "".join(f"u {at}\n" + (f"l 1 {6 * (at if at <= 10 else at - 15)} -\n" if not 10 < at <= 15 else "") for at in range(1, 26))
    levels = plotted(text.encode()).curves("level and target, frames")["#1f5fa8"]
    same(len(levels), 2, "curves of the level")
    near(levels[0], [(at, 6 * at) for at in range(1, 11)], "the first run", 1)
    near(levels[1], [(at, 6 * (at - 15)) for at in range(16, 26)], "the second run", 1)


def test_plot_of_a_recording(_):
    """Packets of six frames, of which two are lost."""
    text = "".join(f"u {at}\ni 2 6 {'lost' if at in (7, 8) else 'ok'}\n" for at in range(1, 17)) + "steady yes\n"
    drawing = plotted(text.encode())
    assert "stream 2, from the device" in drawing.said() and "2 packets lost; the run was steady" in drawing.said(), drawing.said()
    near(drawing.dots("packets that came, frames")[0], [(at, 6) for at in range(1, 17) if at not in (7, 8)], "packets", 0.1)
    same(drawing.marks("packet lost"), [7, 8], "marks")


def test_four_lost_reports_are_not_steady(_):
    reports = {8: "f 1 00060000 ok\n", **{at: "f 1 00060000 lost\n" for at in (16, 24, 32, 40, 48)}}
    text = "".join(f"u {at}\nl 1 {at} -\n{reports.get(at, '')}" for at in range(1, 49))
    words = "0 packets lost, 5 reports lost; not steady: four reports in succession were lost by microframe 40 (5 ms)"
    assert words in plotted(text.encode() + b"steady no\n").said()


def test_no_text_lies_over_data(_):
    """No text stands in a panel, and none over another."""
    with open(os.path.join(TOP, "examples/stream.script"), "rb") as file:
        told = run(file.read())
    for drawing in (plotted(told, "--script", "examples/stream.script"), plotted(transcript())):
        found = list(boxes(drawing))
        for at, (words, left, top, right, bottom) in enumerate(found):
            for panel in drawing.panels:
                is_over = left < panel.right and right > panel.left and top < panel.bottom and bottom > panel.top
                assert not is_over, f"{words!r} stands in the panel {panel.caption!r}"
            for other, far, high, end, low in found[:at]:
                assert not (left < end and right > far and top < low and bottom > high), f"{words!r} stands over {other!r}"


def test_plot_of_a_run(folder):
    """A run with its script: what was lost, and how far the clock was off, from the microframe on behind which the line stood."""
    text = "g\nc 010b010001000000\nk 1 1000\nv 2\nm 400\nm 8 o1\nm 8 f1\nm 384\nk 1 -500\nm 100\n"
    script = as_lines(example("examples/headset.bin")) + text.encode()
    path = os.path.join(folder, "run.script")
    with open(path, "wb") as file:
        file.write(script)
    drawing = plotted(run(script), "--script", path)
    assert "8 packets lost, 1 report lost" in drawing.said(), drawing.said()
    curve = drawing.curves("how far its clock is off, ppm")["#7a4a20"][0]
    near(curve, [(0, 1000), (800, 1000), (800, -500), (900, -500)], "the deviation", 20)
    done = tool("plot", "-", "--script", path, data=run(script.replace(b"m 384", b"m 384\nm 1000")))
    one_sentence(done, 1, "is no script of this run: it has 900 microframes, and - has 1900")


def test_plot_refuses(folder):
    out = os.path.join(folder, "out")
    one_sentence(tool("plot", "-", "-o", out, data=transcript()), 1, "FILE.svg or FILE.png is wanted")
    one_sentence(tool("plot", "-", data=b"ready entities 7 streams 2 domains 1\nc done\n"), 1, "tells of no microframe")
    one_sentence(tool("plot", "-", data=b"u 1\np 4 0 0\n"), 1, "tells of no stream that ran")
    one_sentence(tool("plot", "-", data=b"u 1\nl 1 x -\n"), 1, "line 2 of - is no line of a transcript")
    if why_missing("rsvg-convert"):
        one_sentence(tool("plot", "-", "-o", out + ".png", data=transcript()), 1, "apt-get install librsvg2-bin")


def test_plot_is_a_png(folder):
    """The PNG is the SVG, by rsvg-convert."""
    need("rsvg-convert")
    out = os.path.join(folder, "out.png")
    done = tool("plot", "-", "-o", out, data=transcript())
    same((done.returncode, done.stdout), (0, b""), done.stderr.decode())
    drawing = tool("plot", "-", data=transcript()).stdout
    made = subprocess.run(["rsvg-convert", "--format=png"], input=drawing, stdout=subprocess.PIPE).stdout
    with open(out, "rb") as file:
        data = file.read()
    same(data[:8], PNG, "plot")
    assert data == made, "the PNG isn't the SVG by rsvg-convert"


# ---- draw

def test_draw_by_dot(_):
    need("dot")
    done = tool("draw", "--svg", "examples/headset.bin")
    same((done.returncode, done.stderr), (0, b""), "draw")
    assert xml.dom.minidom.parseString(done.stdout).documentElement.tagName == "svg"


def ends_of(path):
    """The first and the last place of a path of Graphviz."""
    numbers = [float(word) for word in re.findall(r"-?[\d.]+", path)]
    return numbers[:2], numbers[-2:]


def test_clocks_edges_reach_their_nodes(_):
    """Each end of a dashed edge lies on the box around its node, within two points."""
    need("dot")
    root = ElementTree.fromstring(tool("draw", "--svg", "examples/headset.bin").stdout)
    nodes = {}
    groups = list(root.iter(SVG + "g"))
    for group in (group for group in groups if group.get("class") == "node"):
        numbers = [float(word) for shape in group.findall(SVG + "path") for word in re.findall(r"-?[\d.]+", shape.get("d"))]
        ellipse = group.find(SVG + "ellipse")
        if ellipse is not None:
            x, y, wide, high = (float(ellipse.get(name)) for name in ("cx", "cy", "rx", "ry"))
            numbers = [x - wide, y - high, x + wide, y + high]
        nodes[group.find(SVG + "title").text] = numbers
    dashed = [group for group in groups if group.get("class") == "edge" and group.find(SVG + "title").text.startswith("e1->")]
    same(len(dashed), 4, "dashed edges of the headset")
    for group in dashed:
        for name, (x, y) in zip(group.find(SVG + "title").text.split("->"), ends_of(group.find(SVG + "path").get("d"))):
            xs, ys = nodes[name][::2], nodes[name][1::2]
            is_on = min(xs) - 2 <= x <= max(xs) + 2 and min(ys) - 2 <= y <= max(ys) + 2
            assert is_on, f"an edge of {name} ends at {(x, y)}, and the node is {min(xs), max(xs), min(ys), max(ys)}"
