"""Drawing files as tools/ writes them, and the batch form that the oracle reads."""
import os
import struct
import sys

sys.path.insert(0, os.path.join(os.path.dirname(os.path.abspath(__file__)), "..", "tools"))
from cardermoss.drawing_file import PLAN_BYTES, PLAN_F64, PLAN_OUTPUT, drawing, line, link, record, settings, tables_for  # noqa: F401


def batched(file, f64=PLAN_F64, byte=PLAN_BYTES, output=PLAN_OUTPUT):
    """One drawing of a batch: what is lent, the file's length, the file."""
    return struct.pack("<IIII", f64, byte, output, len(file)) + file


def unbatched(data):
    """The drawings of a batch, each as (f64, byte, output, file)."""
    at = 0
    while at < len(data):
        f64, byte, output, length = struct.unpack_from("<IIII", data, at)
        yield f64, byte, output, data[at + 16:at + 16 + length]
        at += 16 + length
