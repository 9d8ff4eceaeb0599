"""Shows that the comparisons can find faults: each fault of faults.py is put into a copy of the reference program, and comparing
that copy with the C library, or with the reader and writer, has to end with a difference.

usage: python3 tests/seeded_faults.py

Needs target/staticlib/libyolkgorge.a and target/bin/record_driver, and that compare_plans.py and compare_records.py agree
without a fault. Ends with status 1 if a fault was not found.
"""
import os
import shutil
import subprocess
import sys
import tempfile
from concurrent.futures import ThreadPoolExecutor
from pathlib import Path

import faults

ROOT = Path(__file__).resolve().parent.parent
COMPARISONS = {"plans": ("compare_plans.py", "--scale", "1"), "records": ("compare_records.py",)}
# a faulty program may go on for ever, or store without end
LIMITED = ("sh", "-c", 'ulimit -v 1000000 && ulimit -t 100 && exec "$0" "$@"')


def compared(name, old, new, comparison):
    """Whether the comparison finds a difference, and the line that says so. The reference's own assertions are off: they would
    find some themselves."""
    with tempfile.TemporaryDirectory() as folder:
        folder = Path(folder)
        shutil.copytree(ROOT / "tests", folder / "tests", ignore=shutil.ignore_patterns("__pycache__"))
        for shared in ("target", "examples"):
            (folder / shared).symlink_to(ROOT / shared)
        path = folder / "tests/reference" / f"{name}.py"
        right = path.read_text()
        assert right.count(old) == 1, f"{old!r} stands {right.count(old)} times in {name}.py"
        path.write_text(right.replace(old, new))
        program, *words = COMPARISONS[comparison]
        command = [*LIMITED, sys.executable, "-O", folder / "tests" / program, *words]
        lines = subprocess.run(command, cwd=folder, capture_output=True, text=True).stderr.splitlines() or ["no difference"]
    found = [line for line in lines if line.startswith("difference")]
    return bool(found), (found or lines[-1:])[0]


def main():
    jobs = [(what, name, old, new, comparison) for some, name, comparisons in faults.GROUPS
            for what, old, new in some for comparison in comparisons]
    missed = 0
    with ThreadPoolExecutor(os.cpu_count()) as pool:
        for (what, *_, comparison), (found, line) in zip(jobs, pool.map(lambda job: compared(*job[1:]), jobs)):
            missed += not found
            print(f"{comparison}: {what}: {'' if found else 'NOT FOUND, '}{line[:120]}", flush=True)
    print(f"{sum(len(some) for some, *_ in faults.GROUPS)} faults; found in {len(jobs) - missed} of {len(jobs)} comparisons")
    sys.exit(missed > 0)


if __name__ == "__main__":
    main()
