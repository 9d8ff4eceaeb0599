"""Runs the plan printer on the example records, and holds its output to the paper's cases; then on some hundred records more,
and compares its whole text with the one that the reference program's own plan gives.

usage: python3 tests/compare_printer.py [PRINTER] [--seed N]      (PRINTER: target/bin/printer)

Ends with status 1 and an explanation at the first difference, or where some answer never came up.
"""
import argparse
import subprocess
import sys
import time
from contextlib import suppress
from pathlib import Path

ROOT = Path(__file__).resolve().parent.parent
RECORDS = ROOT / "examples/records"
sys.path.insert(0, str(ROOT / "tests/reference"))
import planning  # noqa: E402  (needs the folder above)
import printer_cases  # noqa: E402

# the paper's plans, and others that its rules for the order and for the start give
PLANS = {"case-a": [(0, 3), (1, 3), (1, 7), (2, 7), (2, 10)], "case-e": [(1, 0)], "first-row": [(1, 2), (1, 4), (3, 4), (3, 6)],
         "case-f": [(1, 5), (1, 10), (4, 10), (4, 22), (9, 22)], "case-g": [(1, 1), (1, 6), (2, 6), (2, 8)],
         "two-rules": [(1, 1), (2, 4), (4, 6), (5, 10), (7, 11), (7, 13), (8, 13)]}
REFUSED = {"case-b": 9, "case-c": 9, "case-d": 9, "case-h": 9, "case-k-short": 1, "case-k-long": 7, "ladder-1001": 5,
           "total-over": 4}
COUNTS = {"stock-ladder": 17, "stock-prices": 17}

# what must come up: the refusals that a record alone can have, and the longest plans of each form
REFUSALS = (1, 2, 3, 4, 5, 6, 7, 9)
LONGEST = {"ladder": 2_001, "unit prices": 2_001, "table": 255}
# more than enough for the areas of every deal
AREAS = (9_000, 9_000, 8, 40_000)


def printed(printer, content, pieces=1):
    """What the printer writes for an input, which may come in pieces."""
    run = subprocess.Popen([printer], stdin=subprocess.PIPE, stdout=subprocess.PIPE, bufsize=0)
    size = len(content) // pieces
    with suppress(BrokenPipeError):  # the printer need not read all of an input that is too long
        for piece in range(pieces - 1):
            run.stdin.write(content[piece * size:(piece + 1) * size])
            time.sleep(0.01)
    text = run.communicate(content[size * (pieces - 1):])[0]
    if run.returncode:
        sys.exit(f"the printer ended with status {run.returncode}")
    return text.decode()


def refused(number):
    return f"refused {number}\n"


def lines(plan):
    return f"steps {len(plan)}\n" + "".join(f"{k} {place} {paid}\n" for k, (place, paid) in enumerate(plan, 1))


def hold(name, content, got, wanted):
    """Ends the program if a text is not as it has to be."""
    if got != wanted:
        pairs = zip([*got.splitlines(True), "nothing"], [*wanted.splitlines(True), "nothing"])
        one, other = next((pair for pair in pairs if pair[0] != pair[1]), (got, wanted))
        sys.exit(f"difference: {name}: the printer wrote {one!r}, wanted is {other!r}\n"
                 f"{len(content)} bytes: {content[:200].hex()}")


def paper_cases(printer):
    """Cases whose text, or whose number of steps, the paper has; how many."""
    wanted = {name: lines(plan) for name, plan in PLANS.items()} | {name: refused(e) for name, e in REFUSED.items()}
    content = {name: (RECORDS / f"{name}.bin").read_bytes() for name in wanted | COUNTS}
    wanted |= {"nothing": refused(1), "longest and a byte": refused(7), "longest and more": refused(7)}
    longest = (RECORDS / "ladder-1000.bin").read_bytes()
    content |= {"nothing": b"", "longest and a byte": longest + b"\0", "longest and more": longest + bytes(9_000)}
    for name, text in wanted.items():
        hold(name, content[name], printed(printer, content[name]), text)
    for name, count in COUNTS.items():
        text = printed(printer, content[name]).splitlines()
        hold(name, content[name], f"{text[0]}, {len(text) - 1} lines", f"steps {count}, {count} lines")
    return len(content)


def reference_text(content):
    reply = planning.plan(content, *AREAS)
    return refused(reply[1]) if reply[0] == "refused" else lines(reply[1])


def generated_inputs(printer, seed):
    """The kind and the text of each input; every twentieth comes in three pieces as well."""
    for i, (kind, content) in enumerate(printer_cases.all_inputs(seed)):
        text = reference_text(content)
        for pieces in (1, 3) if i % 20 == 0 else (1,):
            hold(f"{kind}, input {i}", content, printed(printer, content, pieces), text)
        yield kind, text


def missing(seen):
    """What should have come up among the kinds and texts and did not."""
    starts = {(kind, text.split("\n")[0]) for kind, text in seen}
    refusals = {start for _, start in starts}
    return ([f"refused {e}" for e in REFUSALS if f"refused {e}" not in refusals]
            + [f"{form} of {n} steps" for form, n in LONGEST.items() if (f"longest {form}", f"steps {n}") not in starts])


def main():
    words = argparse.ArgumentParser(description=__doc__, formatter_class=argparse.RawDescriptionHelpFormatter)
    words.add_argument("printer", nargs="?", default=ROOT / "target/bin/printer")
    words.add_argument("--seed", type=int, default=3)
    words = words.parse_args()
    known = paper_cases(words.printer)
    seen = list(generated_inputs(words.printer, words.seed))
    if missing(seen):
        sys.exit(f"no input has the answer {missing(seen)}")
    plans = [text for _, text in seen if text.startswith("steps")]
    longest = max(plans, key=len)
    print(f"the printer writes what the paper says of {known} inputs, and text for text what the reference says of {len(seen)}: "
          f"{len(plans)} plans, the longest text with {len(longest.splitlines())} lines and {len(longest)} bytes, "
          f"and {len(seen) - len(plans)} refusals")


if __name__ == "__main__":
    main()
