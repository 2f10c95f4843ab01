"""What is kept of a host's visit: of each run the script and the transcript, what went over the bus as the host made it, and a report.

Without a folder nothing is kept. Where it can't be written, that is said once, and the visit goes on without it."""
import itertools, os, subprocess, threading
from differences import counted
from program import program_path
from tool import Refused

ENDS = ("script", "transcript")
# A replay that takes more seconds has no end.
LONGEST_REPLAY = 7200


class Recording:
    """The files of one visit; `tell` is handed the sentence that says why nothing is kept any more."""

    def __init__(self, folder, name, tell):
        self.tell, self.files, self.runs, self.folder = tell, {}, 0, None
        if folder is None:
            return
        try:
            os.makedirs(folder, exist_ok=True)
            number = 1
            while os.path.exists(os.path.join(folder, f"{name}-visit{number}")):
                number += 1
            self.folder = os.path.join(folder, f"{name}-visit{number}")
            os.mkdir(self.folder)
            self.files["bus"] = open(os.path.join(self.folder, "bus"), "wb", buffering=1 << 16)
        except OSError as why:
            self.give_up(why)

    def give_up(self, why):
        """Nothing more is kept."""
        self.tell(f"the visit isn't recorded any more: {self.folder or 'its folder'} can't be written ({why.strerror})")
        self.folder, files, self.files = None, self.files, {}
        for file in files.values():
            try:
                file.close()
            except OSError:
                pass

    def begin_run(self):
        """The files of the next run."""
        self.end_run()
        self.runs += 1
        if self.folder is None:
            return
        front = os.path.join(self.folder, "run" + (str(self.runs) if self.runs > 1 else ""))
        try:
            for end in ENDS:
                self.files[end] = open(f"{front}.{end}", "wb", buffering=1 << 16)
        except OSError as why:
            self.give_up(why)

    def write(self, end, data):
        if end in self.files:
            try:
                self.files[end].write(data)
            except OSError as why:
                self.give_up(why)

    def said(self, data):
        self.write("script", data)

    def heard(self, data):
        self.write("transcript", data)

    def bus(self, text):
        """What went over the bus, in the form of tools/script_of."""
        self.write("bus", text.encode())

    def end_run(self, ends=ENDS):
        for file in [self.files.pop(end) for end in ends if end in self.files]:
            try:
                file.close()
            except OSError as why:
                if self.folder is not None:
                    self.give_up(why)

    def report(self, text):
        self.end_run((*ENDS, "bus"))
        if self.folder is None:
            return
        try:
            with open(os.path.join(self.folder, "report"), "w", encoding="utf-8") as file:
                file.write(text)
        except OSError as why:
            self.give_up(why)


# ---- a recording, tried again

def scripts_in(folder):
    """The scripts of a folder and of those in it that have a transcript beside them."""
    found = []
    for at, folders, files in os.walk(folder):
        folders.sort()
        found += [os.path.join(at, file) for file in sorted(files) if file.endswith(".script") and file[:-7] + ".transcript" in files]
    return found


def spell(line):
    return "nothing" if line is None else f"'{line.decode('ascii', 'replace').rstrip()[:120]}'"


def replay(path):
    """Runs a script of a recording; what differs, as a sentence, None where it prints the transcript to the byte; and how many lines
    agree."""
    try:
        with open(path, "rb") as script, open(path[:-7] + ".transcript", "rb") as kept:
            with subprocess.Popen([program_path(), "run"], stdin=script, stdout=subprocess.PIPE) as process:
                limit = threading.Timer(LONGEST_REPLAY, process.kill)
                limit.start()
                try:
                    return first_difference(process.stdout, kept)
                finally:
                    process.kill()
                    limit.cancel()
    except OSError as why:
        raise Refused(f"{path} can't be replayed with its transcript ({why.strerror})")


def first_difference(told, kept):
    """The first line in which two transcripts differ, as a sentence, None where they are the same; and how many lines before it agree."""
    number = 0
    for one, other in itertools.zip_longest(told, kept):
        if one != other:
            return f"line {number + 1} of the transcript is {spell(one)} now, and was {spell(other)}", number
        number += 1
    return None, number


def check(folder):
    """Replays each run of a folder, and prints what came of it: 0 where all are the same, 1 where some differ."""
    if not os.path.isdir(folder):
        raise Refused(f"there is no folder {folder}: one that --out kept is wanted")
    paths, differ = scripts_in(folder), 0
    if not paths:
        raise Refused(f"{folder} has no recording: a folder that --out kept is wanted")
    for path in paths:
        why, lines = replay(path)
        differ += why is not None
        print(f"{os.path.relpath(path, folder)}: " + (why or f"the same, {lines} lines"))
    print(f"{counted(len(paths), 'run')}, {differ} differ")
    return 1 if differ else 0
