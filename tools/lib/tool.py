"""What the tools share: their words, input and output, and the program that they ask. The rules' sentences stand in rules.py."""
import contextlib, functools, glob, os, subprocess, sys
from rules import RULES

TOP = os.path.dirname(os.path.dirname(os.path.dirname(os.path.abspath(__file__))))
# The program that is asked; the environment may name another, as a build that stands elsewhere.
PROGRAM = os.environ.get("UAC_CLI") or os.path.join(TOP, "uac_cli")
# The status of a command that Ctrl-C ended, as shells have it.
BY_CTRL_C = 130


class Refused(Exception):
    """What stands in the way, as one sentence."""


def options_of(words, flags=(), values=()):
    """The files among the words, the flags that are there, and the values of options by their names."""
    words, files, found, given = list(words), [], set(), {}
    while words:
        word = words.pop(0)
        if word in flags:
            found.add(word)
        elif word in values:
            if not words:
                raise Refused(f"a value is wanted after {word}")
            given[word] = words.pop(0)
        elif word.startswith("-") and word != "-":
            raise Refused(f"no option {word}; --help says how")
        else:
            files.append(word)
    return files, found, given


def some_files(files, what):
    """The files, of which one is wanted at least."""
    if not files:
        raise Refused(f"a {what} is wanted; --help says how")
    return files


def one_file(files, what):
    """The one file that is wanted."""
    if len(files) != 1:
        raise Refused(f"one {what} is wanted; --help says how")
    return files[0]


def read_input(name, wanted="a file with its bytes is wanted, as a device's folder of sysfs has it in the file 'descriptors'"):
    """The bytes of a file, or of standard input for '-'."""
    try:
        if name == "-":
            data = sys.stdin.buffer.read()
        else:
            with open(name, "rb") as file:
                data = file.read()
    except OSError as why:
        raise Refused(f"{name} can't be read ({why.strerror}): {wanted}")
    if not data:
        raise Refused(f"{name} is empty: {wanted}")
    return data


def write_output(name, data, force):
    """Writes to a file that isn't there yet, or to standard output where no name is given; with force over one that is."""
    if name is None or name == "-":
        sys.stdout.buffer.write(data)
        sys.stdout.buffer.flush()
        return
    try:
        with open(name, "wb" if force else "xb") as file:
            file.write(data)
    except FileExistsError:
        raise Refused(f"{name} is there already: --force writes over it")
    except OSError as why:
        raise Refused(f"{name} can't be written ({why.strerror})")


@functools.lru_cache(None)
def newest_source(crates="*"):
    """When a source of this crate, or of one of these, was changed last."""
    times = [0]
    for part in ("src", "specs", "proofs"):
        for top, folders, files in (found for crate in glob.glob(os.path.join(TOP, "crates", crates, part)) for found in os.walk(crate)):
            times += [os.lstat(os.path.join(top, name)).st_mtime_ns for name in ["."] + folders + files]
    return max(times)


def sources_since(since):
    """Whether some source of the crates is newer than this time."""
    return max(os.lstat(os.path.join(TOP, "crates.txt")).st_mtime_ns, newest_source()) > since


def is_built():
    """Whether the program is built and no source is newer, as ./uac_cli judges it."""
    folder = os.path.join(TOP, "crates/uac_cli/out")
    stamp = os.path.join(folder, "launcher.stamp")
    if not os.access(os.path.join(folder, "uac_cli"), os.X_OK) or not os.path.exists(stamp):
        return False
    return not sources_since(os.stat(stamp).st_mtime_ns)


@functools.lru_cache(None)
def program():
    """The program that is asked: the one that the environment names, or ./uac_cli where asking it builds nothing."""
    if os.environ.get("UAC_CLI"):
        return os.environ["UAC_CLI"]
    if not is_built():
        raise Refused("the program isn't built, or is older than its sources: './uac_cli check < examples/minimal.bin' builds it, with "
                      "every proof, which takes long; 'cd crates/uac_cli && rt try -- check < FILE' answers without proofs (and UAC_CLI "
                      "in the environment may name a program that stands elsewhere)")
    return PROGRAM


def need_answers():
    """Refuses where neither the library nor the program is there to ask: for those who ask often."""
    from library import library
    if library() is None:
        program()


def ask(command, data):
    """What the program answers, or the library where that is built: its lines and its status."""
    from library import told
    answer = told(command, data)
    if answer is not None:
        return answer[0].splitlines(), answer[1]
    try:
        done = subprocess.run([program(), command], input=data, stdout=subprocess.PIPE)
    except OSError as why:
        raise Refused(f"the program {program()} can't be run ({why.strerror})")
    if done.returncode == 70:
        raise Refused("the program could not be built; its own words stand above")
    return done.stdout.decode("ascii", errors="replace").splitlines(), done.returncode


def page(name):
    """The lines of a page of docs/."""
    with open(os.path.join(TOP, "docs", name), encoding="utf-8") as file:
        return file.read().splitlines()


def cells_of(line):
    """The cells of a table's row."""
    return [cell.strip() for cell in line.strip().strip("|").split("|")]


def rules():
    """Each rule's sentence, by its name."""
    return RULES


def tell_trouble(why):
    """One sentence on standard error, behind the tool's name and what was printed before."""
    with contextlib.suppress(BrokenPipeError):
        sys.stdout.flush()
    print(f"{os.path.basename(sys.argv[0])}: {why}", file=sys.stderr, flush=True)


def main_of(main, doc, trouble=1):
    """Runs a tool: --help, and refusals as one sentence on standard error with the status that says so."""
    try:
        if any(word in ("-h", "--help") for word in sys.argv[1:]):
            print(doc)
            status = 0
        else:
            status = main(sys.argv[1:])
        sys.stdout.flush()
        return status
    except Refused as why:
        tell_trouble(why)
        return trouble
    except KeyboardInterrupt:
        tell_trouble("ended by Ctrl-C")
        return BY_CTRL_C
    except BrokenPipeError:
        os.dup2(os.open(os.devnull, os.O_WRONLY), 1)
        return 0
