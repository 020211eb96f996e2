"""The programs `plan` and `save`: where they are, and their answers as values."""
import collections
import os
import re
import struct
import subprocess

from . import refusals
from .drawing_text import Text

ROOT = os.path.dirname(os.path.dirname(os.path.dirname(os.path.abspath(__file__))))

# points are pairs of whole grid steps; refusal is 0 for a planned drawing
Answer = collections.namedtuple("Answer", "refusal retrace before after points")


def program(given=None, name="plan"):
    """The path of `plan`: what was given, or PLAN in the environment, or where `rt run` puts it. So for `save`."""
    return given or os.environ.get(name.upper()) or os.path.join(ROOT, "crates", name, "out", name)


def parsed(text):
    """What `plan` prints, as values."""
    rows = text.splitlines()
    head = rows[0].split(" ")
    if head[0] == "refused" and int(head[1]) in refusals.CONDITIONS:
        return Answer(int(head[1]), 0.0, 0, 0, [])
    points = [tuple(map(int, row.split(" "))) for row in rows[1:]]
    if head[0] != "ok" or len(points) != int(head[4]):
        raise ValueError("this is not what `plan` prints")
    return Answer(0, struct.unpack(">d", bytes.fromhex(head[1]))[0], int(head[2]), int(head[3]), points)


class Wrong(Exception):
    """What stops a command, in words."""


def printed(file, path):
    """What the program `plan` at this path prints for a drawing file."""
    if not os.access(path, os.X_OK):
        raise Wrong(f"{path} is not built: `rt run` in crates/plan builds it")
    run = subprocess.run([path], input=file, stdout=subprocess.PIPE, check=True)
    return run.stdout.decode("ascii")


def saved(file, path):
    """What the program `save` at this path makes of a drawing file: the number that it is refused with, or 0, and the file saved."""
    if not os.access(path, os.X_OK):
        raise Wrong(f"{path} is not built: `rt run` in crates/save builds it")
    run = subprocess.run([path], input=file, stdout=subprocess.PIPE, stderr=subprocess.PIPE, check=True)
    refused = re.fullmatch(rb"refused ([1-9][0-9]?)\n", run.stderr)
    number = int(refused[1]) if refused else 0
    if bool(run.stdout) == bool(refused) or (run.stderr and not refused) or number not in {0, *refusals.CHECKS}:
        raise ValueError("this is not what `save` prints")
    return number, run.stdout


def loaded(path):
    """The bytes of a drawing file, or of the file that a text (NAME.txt) says."""
    try:
        with open(path, "rb") as source:
            data = source.read()
        if not path.endswith(".txt"):
            return data
        text = Text(data.decode("utf-8-sig"))
    except OSError as wrong:
        raise Wrong(f"{path}: {wrong.strerror}") from None
    except UnicodeDecodeError:
        raise Wrong(f"{path}: this is no text in UTF-8") from None
    if text.errors:
        raise Wrong("\n".join(f"{path}:{row}: {words}" for row, words in text.errors))
    return text.file

