"""What the tests of tools/serve share: a server on a free port, its lines on standard error, and what a visit's transcript tells."""
import functools, itertools, os, queue, re, signal, subprocess, sys, threading, time
from needs import PROGRAM, TOP, as_lines
sys.path.insert(0, os.path.join(TOP, "tools/lib"))

EXAMPLES = ("headset", "f_uac2-default", "f_uac2-bint1-s24-48k", "composite-uac2-midi", "minimal")
SECONDS = 240
# Microframes a second at detail 2, from which on a whole minute of the bus is played.
FAST = 20000


class Skipped(Exception):
    pass


def example(name):
    with open(os.path.join(TOP, "examples", name + ".bin"), "rb") as file:
        return file.read()


def same(told, wanted, of):
    if told != wanted:
        raise AssertionError(f"{of}: {told!r:.300}, wanted {wanted!r:.300}")


@functools.lru_cache(None)
def speed():
    """How many microframes of the headset's two streams the program makes in a second, at detail 2."""
    script = as_lines(example("headset")) + b"g\nc 010b010001000000\nc 010b010002000000\nv 2\nm 400\n"
    begin = time.monotonic()
    subprocess.run([PROGRAM, "run"], input=script, stdout=subprocess.DEVNULL, timeout=SECONDS)
    return 400 / (time.monotonic() - begin)


class Server:
    """tools/serve with these words, on a free port or this one. Every wait has an end, and the server ends with the test."""

    def __init__(self, *words, before=None, port=0):
        self.process = subprocess.Popen([os.path.join(TOP, "tools/serve"), *words, "--port", str(port)], cwd=TOP, stdin=subprocess.PIPE,
                                        stdout=subprocess.PIPE, stderr=subprocess.PIPE, preexec_fn=before,
                                        env={**os.environ, "UAC_CLI": PROGRAM})
        self.lines, self.text = queue.Queue(), []
        self.reader = threading.Thread(target=self.read, daemon=True)
        self.reader.start()
        self.port = int(self.wait_for(r"listening at 127\.0\.0\.1:(\d+)")[1])

    def read(self):
        for line in self.process.stderr:
            self.lines.put(line.decode().rstrip("\n"))

    def wait_for(self, pattern, seconds=SECONDS):
        """The next line with this in it, as it was found."""
        end = time.monotonic() + seconds
        while time.monotonic() < end:
            try:
                line = self.lines.get(timeout=0.2)
            except queue.Empty:
                if self.process.poll() is not None and self.lines.empty():
                    break
                continue
            self.text.append(line)
            found = re.search(pattern, line)
            if found:
                return found
        raise AssertionError(f"the server never said {pattern!r}; it said {self.text[-6:]}")

    def say(self, line):
        self.process.stdin.write(line.encode() + b"\n")
        self.process.stdin.flush()

    def host(self):
        from usbip import Host
        return Host(port=self.port, seconds=SECONDS)

    def attach(self, busid="1-1"):
        host = self.host()
        host.attach(busid)
        return host

    def stop(self):
        """Ctrl-C; the status."""
        if self.process.poll() is None:
            self.process.send_signal(signal.SIGINT)
        status = self.process.wait(SECONDS)
        self.reader.join(SECONDS)
        while not self.lines.empty():
            self.text.append(self.lines.get())
        return status

    def __enter__(self):
        return self

    def __exit__(self, *_):
        if self.process.poll() is None:
            self.process.send_signal(signal.SIGTERM)
            try:
                self.process.wait(SECONDS)
            except subprocess.TimeoutExpired:
                self.process.kill()
        for stream in (self.process.stdin, self.process.stdout, self.process.stderr):
            try:
                stream.close()
            except OSError:
                pass


def visits(folder):
    return sorted(os.path.join(folder, name) for name in os.listdir(folder))


def lines_of(visit, run=""):
    """The lines of a transcript, one after the other: a minute of the bus has millions."""
    with open(os.path.join(visit, f"run{run}.transcript"), "r", encoding="ascii") as file:
        for line in file:
            yield line.rstrip("\n")


def transcript(visit, run=""):
    return list(lines_of(visit, run))


def each_frame(lines, mark):
    """The samples of lines such as `p 4` or `r 2`, a tuple for each frame."""
    front = mark + " "
    for line in lines:
        if line.startswith(front):
            yield tuple(map(int, line[len(front):].split(" ")))


def frames_of(lines, mark):
    return list(each_frame(lines, mark))


def each_sample(pieces, form):
    """The frames of a stream's bytes, each sample at the top of 32 bits."""
    size = form.subslot
    for data in pieces:
        numbers = [int.from_bytes(data[at:at + size], "little", signed=True) << 32 - 8 * size for at in range(0, len(data), size)]
        for at in range(0, len(numbers), form.channels):
            yield tuple(numbers[at:at + form.channels])


def samples(data, form):
    return list(each_sample([data], form))


def same_frames(told, wanted, of):
    """That two rows of frames are the same, however long."""
    count = 0
    for one, other in itertools.zip_longest(told, wanted):
        if one != other:
            raise AssertionError(f"{of}: frame {count} is {one}, wanted {other}")
        count += 1
    return count


def each_sounding(frames):
    """The frames from the first that isn't silent to the last, one after the other."""
    quiet, has_begun = [], False
    for frame in frames:
        if any(frame):
            yield from quiet
            quiet, has_begun = [], True
            yield frame
        elif has_begun:
            quiet.append(frame)


def replayed(folder):
    """That each run of a recording prints its transcript again."""
    done = subprocess.run([os.path.join(TOP, "tools/serve"), "--check", folder], cwd=TOP, stdout=subprocess.PIPE, stderr=subprocess.PIPE,
                          env={**os.environ, "UAC_CLI": PROGRAM}, timeout=10 * SECONDS)
    assert done.returncode == 0 and b", 0 differ\n" in done.stdout, done.stdout + done.stderr
    return done.stdout.decode()
