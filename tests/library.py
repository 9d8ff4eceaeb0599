"""The C library, called from Python: the same entries as a desk calls, over numbers and byte areas.

build(folder)   makes a shared library of target/staticlib/libyolkgorge.a, or of the file that YOLKGORGE_LIB names
Library(path)   its entries; each answers as the reference in reference/planning.py and reference/sparing.py does, areas included
"""
import ctypes
import os
import subprocess
from pathlib import Path

ARCHIVE = os.environ.get("YOLKGORGE_LIB") or Path(__file__).resolve().parent.parent / "target/staticlib/libyolkgorge.a"
BOUNDS_BYTES = 16
GOALS = "payments", "deliveries", "moves"


def build(folder):
    path = Path(folder) / "libyolkgorge.so"
    subprocess.run(["gcc", "-shared", "-o", path, "-Wl,--whole-archive", ARCHIVE, "-Wl,--no-whole-archive"], check=True)
    return path


def area(content):
    """A byte area that an entry may write, and its two arguments. A guard byte on either side shows a store outside it."""
    held = (ctypes.c_uint8 * (len(content) + 2))(0xC3, *content, 0x3C)
    return held, (ctypes.cast(ctypes.byref(held, 1), ctypes.POINTER(ctypes.c_uint8)), ctypes.c_size_t(len(content)))


def content_of(held):
    content = bytes(held)
    assert content[:1] == b"\xc3" and content[-1:] == b"\x3c", "a byte outside an area was changed"
    return content[1:-1]


class Library:
    def __init__(self, path):
        self.entries = ctypes.CDLL(str(path))
        for name in ("plan", *(f"plan_fewest_{goal}" for goal in GOALS)):
            getattr(self.entries, f"yolkgorge_{name}").restype = ctypes.c_int64
        for name in ("check", "open", "report", "finished", "bounds"):
            getattr(self.entries, f"yolkgorge_{name}").restype = ctypes.c_uint32

    def call(self, name, *arguments):
        """The answer, and the areas (given as bytes) after it; numbers are given as ctypes numbers."""
        held, words = [], []
        for argument in arguments:
            if isinstance(argument, bytes):
                one, pair = area(argument)
                held.append(one)
                words += pair
            else:
                words.append(argument)
        answer = getattr(self.entries, f"yolkgorge_{name}")(*words)
        return answer, [content_of(one) for one in held]

    def plan(self, record, places, sums, order, work):
        answer, after = self.call("plan", record, places, sums, order, work)
        return answer, after[0], tuple(after[1:])

    def plan_fewest(self, goal, record, places, sums, order):
        answer, after = self.call(f"plan_fewest_{goal}", record, places, sums, order)
        return answer, after[0], tuple(after[1:])

    def bounds(self, record, place, order, room):
        answer, after = self.call("bounds", record, ctypes.c_size_t(place), order, room)
        return answer, after[2]

    def check(self, record, count, places, sums, order):
        return self.call("check", record, ctypes.c_size_t(count), places, sums, order)[0]

    def open(self, session, record, count, places, sums, order):
        answer, after = self.call("open", session, record, ctypes.c_size_t(count), places, sums, order)
        return answer, after[0]

    def report(self, session, count, places, sums, side, number):
        answer, after = self.call("report", session, ctypes.c_size_t(count), places, sums, ctypes.c_uint32(side), ctypes.c_uint32(number))
        return answer, after[0]

    def finished(self, session, count):
        return self.call("finished", session, ctypes.c_size_t(count))[0]
