"""A run of the program that is kept open: lines go in by a pipe, and what they print comes out by another.

A line of microframes at detail 0 prints nothing, so a line that is answered stands behind each wait: the fence, a GET_INTERFACE. Both
pipes are served at once, since with nothing read either side would stop once they are full."""
import os, select, subprocess, time
from library import told
from tool import TOP, Refused

# A line of a script may have so many bytes, and an input so many.
LONGEST_LINE = 4096
LONGEST_INPUT = 268435456
SILENCE = 60


class Stopped(Exception):
    """The program ended its run, or says nothing: why, as a sentence."""


def program_path():
    """The built program. It is never built from here: that would prove every crate."""
    path = os.environ.get("UAC_CLI") or os.path.join(TOP, "crates/uac_cli/out/uac_cli")
    if not os.access(path, os.X_OK) or os.path.isdir(path):
        raise Refused(f"the program isn't built: there is no {path} that can be run. './uac_cli check < examples/minimal.bin' builds it, "
                      "and UAC_CLI=PROGRAM names one that stands elsewhere")
    return path


def lines_of_descriptor(data):
    return "".join(f"d {data[at:at + 48].hex()}\n" for at in range(0, len(data), 48))


class Program:
    """`uac_cli run` behind two pipes. `said` and `heard` are handed all bytes that go in and come out."""

    def __init__(self, fence_interface, said, heard):
        self.process = subprocess.Popen([program_path(), "run"], stdin=subprocess.PIPE, stdout=subprocess.PIPE, bufsize=0,
                                        start_new_session=True)
        self.into, self.out = self.process.stdin.fileno(), self.process.stdout.fileno()
        os.set_blocking(self.into, False)
        os.set_blocking(self.out, False)
        self.fence = f"c 810a0000{fence_interface:02x}000100\n"
        self.said, self.heard = said, heard
        self.waiting, self.text, self.bytes = bytearray(), bytearray(), 0

    def say(self, text):
        """Lines that nobody waits for."""
        data = text.encode()
        self.bytes += len(data)
        self.said(data)
        self.waiting += data

    def pump(self, until):
        """Serves both pipes until what came out is whole; what came out."""
        last = time.monotonic()
        while not until(self.text) or self.waiting:
            readable, writable, _ = select.select([self.out], [self.into] if self.waiting else [], [], SILENCE)
            if writable:
                self.write_some()
            if readable:
                last = time.monotonic()
                self.read_some()
            elif time.monotonic() - last >= SILENCE:
                raise Stopped(f"the program says nothing for {SILENCE} seconds")
        text, self.text = bytes(self.text), bytearray()
        return text.decode("ascii", "replace")

    def write_some(self):
        try:
            del self.waiting[:os.write(self.into, self.waiting[:1 << 16])]
        except BlockingIOError:
            pass
        except BrokenPipeError:
            # It ended: what it said last is still to be read.
            self.waiting.clear()

    def read_some(self):
        piece = os.read(self.out, 1 << 18)
        if not piece:
            last = bytes(self.text).decode("ascii", "replace").rstrip("\n").rpartition("\n")[2]
            status = self.process.wait(SILENCE)
            raise Stopped(f"the program ended its run with status {status}" + (f" and the line '{last}'" if last else ""))
        self.heard(piece)
        self.text += piece

    def ask(self, line):
        """What a line prints that prints one line."""
        self.say(line + "\n")
        return self.pump(lambda text: text.endswith(b"\n"))[:-1]

    def turn(self, text):
        """What lines print among which no transfer is, as one text."""
        self.say(text + self.fence)
        mark = b"c bytes 00\n"
        return self.pump(lambda told: told.endswith(mark) and (len(told) == len(mark) or told[-len(mark) - 1] == 10))[:-len(mark)]

    def report(self):
        """The lines of a report."""
        self.say("q\n")
        return self.pump(lambda told: told.endswith(b"\n") and b"\nrenders " in told).splitlines()

    def end(self):
        """Ends the run; its status."""
        try:
            while self.waiting:
                self.pump(lambda _: True)
            self.process.stdin.close()
            while True:
                select.select([self.out], [], [], SILENCE)
                piece = os.read(self.out, 1 << 16)
                if not piece:
                    break
                self.heard(piece)
            return self.process.wait(SILENCE)
        except (OSError, Stopped, subprocess.TimeoutExpired):
            return self.stop()
        finally:
            self.process.stdout.close()

    def stop(self):
        """Ends the program itself, where it doesn't by itself."""
        self.process.kill()
        return self.process.wait()


def answer_once(command, data):
    """What a command prints of a whole input, and the status: by the library where it is built, else by the program."""
    answer = told(command, data)
    if answer is not None:
        return answer[0].splitlines(), answer[1]
    try:
        done = subprocess.run([program_path(), command], input=data, stdout=subprocess.PIPE, timeout=SILENCE)
    except subprocess.TimeoutExpired:
        raise Refused(f"the program says nothing for {SILENCE} seconds")
    return done.stdout.decode("ascii", "replace").splitlines(), done.returncode
