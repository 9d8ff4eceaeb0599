"""Counts the instructions that planning takes as deals grow, plans that spare moves included, with callgrind: the same on every run
of one build.

usage: python3 tests/growth.py      (needs target/staticlib/libyolkgorge.a, gcc and valgrind)
"""
import re
import subprocess
import sys
import tempfile
from pathlib import Path

HERE = Path(__file__).resolve().parent
sys.path.insert(0, str(HERE / "reference"))
import record  # noqa: E402  (needs the folder above)
from planning_cases import even_deal  # noqa: E402
from record import LADDER, TABLE, UNIT_PRICES  # noqa: E402


ENTRIES = {"plan": "yolkgorge_plan", "payments": "yolkgorge_plan_fewest_payments", "deliveries": "yolkgorge_plan_fewest_deliveries",
           "moves": "yolkgorge_plan_fewest_moves"}


def deals():
    for units in (250, 500, 1_000):
        # a payment and the delivery of one unit in turn; and one step, as the defection costs cover all
        yield f"ladder, {units} units, tight", even_deal(LADDER, (units,), 10, 10, 0)
        yield f"ladder, {units} units, loose", even_deal(LADDER, (units,), 10, 10 * units, 10 * units)
    for each in (31, 62, 125):
        yield f"unit prices, {8 * each} units", even_deal(UNIT_PRICES, (each,) * 8, 10, 10, 10)
    for units in ((127,), (1, 63), (3, 3, 3, 1)):
        yield f"table, units {units}", even_deal(TABLE, units, 10, 10, 0)


def counted(program, entry, path):
    """The answer of an entry to the record in a file, and the instructions that it takes."""
    run = subprocess.run(
        ["valgrind", "--tool=callgrind", "--callgrind-out-file=" + str(path.parent / "out"), "--toggle-collect=" + ENTRIES[entry],
         program, entry, path], capture_output=True, text=True, check=True)
    return int(run.stdout), int(re.search(r"Collected : (\d+)", run.stderr)[1])


def main():
    with tempfile.TemporaryDirectory() as folder:
        folder = Path(folder)
        program, path = folder / "plan_file", folder / "record"
        subprocess.run(["gcc", "-O2", "-I", HERE.parent / "include", "-o", program, HERE / "plan_file.c",
                        HERE.parent / "target/staticlib/libyolkgorge.a"], check=True)
        for name, deal in deals():
            path.write_bytes(record.write(deal.header, deal.costs, deal.values, 8_016))
            for entry in ENTRIES if deal.header.form != TABLE else ("plan",):
                steps, count = counted(program, entry, path)
                print(f"{name:32} {entry:10} steps {steps:>5}   instructions {count:>12,}")


if __name__ == "__main__":
    main()
