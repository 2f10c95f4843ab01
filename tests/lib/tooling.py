"""What the tests of the tools share: to call a tool, and to compare what it says."""
import os, subprocess
from needs import TOP, why_missing

SECONDS = 240


class Skipped(Exception):
    pass


def need(*names):
    for name in names:
        if why_missing(name) is not None:
            raise Skipped(why_missing(name))


def tool(name, *words, data=b""):
    words = [os.path.join(TOP, "tools", name), *words]
    return subprocess.run(words, cwd=TOP, input=data, stdout=subprocess.PIPE, stderr=subprocess.PIPE, timeout=SECONDS)


def example(name):
    with open(os.path.join(TOP, name), "rb") as file:
        return file.read()


def same(told, wanted, of):
    if told != wanted:
        lines, others = str(told).split("\n"), str(wanted).split("\n")
        at = next((at for at in range(max(len(lines), len(others))) if lines[at:at + 1] != others[at:at + 1]), 0)
        raise AssertionError(f"{of}: line {at + 1} is {lines[at:at + 1]}, wanted {others[at:at + 1]}")


def one_sentence(done, status, words):
    """That a tool refused: its status, nothing written, and a sentence on standard error with these words in it."""
    said = done.stderr.decode()
    same((done.returncode, done.stdout), (status, b""), said)
    assert words in said and said.count("\n") == 1 and "Traceback" not in said, f"said {said!r}, wanted a sentence with {words!r}"
