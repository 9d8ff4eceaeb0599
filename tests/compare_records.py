"""Compares the verified reader and writer of the contract record with the reference program, byte by byte.

usage: python3 tests/compare_records.py [DRIVER] [--seed N]      (DRIVER: target/bin/record_driver)
       python3 tests/compare_records.py --crate-files FOLDER     writes FOLDER/stdin and FOLDER/stdout, a small batch

The driver reads a batch of cases and writes its answers; crates/record_driver/src/main.rt describes both streams.
Ends with status 1 and an explanation at the first difference.
"""
import argparse
import subprocess
import sys
import tempfile
from collections import Counter
from dataclasses import dataclass
from itertools import islice
from pathlib import Path

sys.path.insert(0, str(Path(__file__).resolve().parent / "reference"))
import record  # noqa: E402  (needs the folder above)
import record_cases  # noqa: E402

# What the driver puts into an area before it lends it
COST_MARK, VALUE_MARK, BYTE_MARK = 0xA5A5A5A5, 0x5A5A5A5A, 0xA5

BATCH = 200  # cases that the driver is handed at once

READING_REPLIES = range(9)
WRITING_REPLIES = (0, record.LIMIT, record.RANGE, record.FALLING, record.SHORT)


# The batch

def numbers(size, *xs):
    return b"".join(x.to_bytes(size, "little") for x in xs)


def header_bytes(header):
    return (numbers(4, header.price, header.supplier, header.buyer)
            + numbers(2, header.form, header.count, *header.units))


def case_bytes(case):
    second = case.second
    return (numbers(2, case.m, case.n, len(case.record)) + case.record + numbers(2, case.room)
            + header_bytes(second.header) + numbers(2, len(second.costs), len(second.values))
            + numbers(4, *second.costs, *second.values) + numbers(2, second.room))


def batch_bytes(cases):
    return numbers(4, len(cases)) + b"".join(map(case_bytes, cases))


# The answers that the reference gives

@dataclass(frozen=True)
class Part:
    """Numbers of one size in the answers, under the name by which a difference is reported."""
    name: str
    size: int
    numbers: list

    def bytes(self):
        return numbers(self.size, *self.numbers)


def answers(case):
    """The parts of a case's answers, and its reply numbers: one for reading, two for writing."""
    contract = record.read(case.record, case.m, case.n)
    costs, values = [COST_MARK] * case.m, [VALUE_MARK] * case.n
    reply, header = contract, record.Header()
    if isinstance(contract, record.Contract):
        reply, header = 0, contract.header
        costs[:len(contract.costs)] = contract.costs
        values[:len(contract.values)] = contract.values
    second = case.second
    again = record.write(header, costs, values, case.room)
    assert not isinstance(again, bytes) or record.parse(again) == contract, f"read as another contract: {again.hex()}"
    given = record.write(second.header, second.costs, second.values, second.room)
    parts = [Part("reply to reading", 2, [reply]), *header_parts(header), Part("costs", 4, costs), Part("values", 4, values),
             *written_parts("writing again", again, case.room), *written_parts("writing", given, second.room)]
    return parts, reply, (write_reply(again), write_reply(given))


def header_parts(header):
    amounts = [header.price, header.supplier, header.buyer]
    return [Part("price, supplier, buyer", 4, amounts), Part("form", 2, [header.form]), Part("count", 2, [header.count]),
            Part("units", 2, list(header.units))]


def write_reply(written):
    return 0 if isinstance(written, bytes) else written


def written_parts(name, written, room):
    output = written if isinstance(written, bytes) else b""
    return [Part(f"reply to {name}", 2, [write_reply(written)]), Part(f"length by {name}", 4, [len(output)]),
            Part(f"output area of {name}", 1, [*output, *[BYTE_MARK] * (room - len(output))])]


# Comparing

def run(driver, batch):
    with tempfile.TemporaryFile() as given, tempfile.TemporaryFile() as got:
        given.write(batch)
        given.seek(0)
        subprocess.run([driver], stdin=given, stdout=got, check=True)
        got.seek(0)
        return got.read()


def difference(parts, got):
    """What differs first between the parts and the bytes that the driver wrote for them."""
    at = 0
    for part in parts:
        for i, expected in enumerate(part.numbers):
            field = got[at:at + part.size]
            if field != expected.to_bytes(part.size, "little"):
                wrote = int.from_bytes(field, "little") if len(field) == part.size else "nothing"
                return f"{part.name} [{i}]: the reference has {expected}, the driver {wrote}"
            at += part.size
    return "none"


def explain(case, parts, got):
    second = case.second
    return "\n".join((
        f"difference: {case.kind}: {difference(parts, got)}",
        f"  record, {len(case.record)} bytes: {case.record.hex()}",
        f"  areas for reading: {case.m} costs, {case.n} values; room for writing again: {case.room}",
        f"  reference: {record.read(case.record, case.m, case.n)}",
        f"  second writing: {second.header}, costs {second.costs}, values {second.values}, room {second.room}",
    ))


def compare(driver, cases):
    """Counts of the kinds, and of the replies to reading and to writing; ends the program at the first difference."""
    kinds, reading, writing = Counter(), Counter(), Counter()
    while batch := list(islice(cases, BATCH)):
        got, at = run(driver, batch_bytes(batch)), 0
        for case in batch:
            parts, read_reply, write_replies = answers(case)
            expected = b"".join(part.bytes() for part in parts)
            if got[at:at + len(expected)] != expected:
                sys.exit(explain(case, parts, got[at:at + len(expected)]))
            at += len(expected)
            kinds[case.kind] += 1
            reading[read_reply] += 1
            writing.update(write_replies)
        if at != len(got):
            sys.exit(f"the driver wrote {len(got) - at} bytes after the last answer")
    return kinds, reading, writing


def report(name, counts):
    print(f"{name}: " + ", ".join(f"{counts[key]} × {key}" for key in sorted(counts)))


def require_all(name, counts, replies):
    missing = [reply for reply in replies if not counts[reply]]
    if missing:
        sys.exit(f"no case has the reply {missing} to {name}")


def write_crate_files(folder):
    cases = record_cases.few_cases()
    (folder / "stdin").write_bytes(batch_bytes(cases))
    (folder / "stdout").write_bytes(b"".join(part.bytes() for case in cases for part in answers(case)[0]))


def main():
    parser = argparse.ArgumentParser(description="Compare the record driver with the reference program.")
    parser.add_argument("driver", nargs="?", default="target/bin/record_driver")
    parser.add_argument("--seed", type=int, default=2000)
    parser.add_argument("--crate-files", type=Path)
    options = parser.parse_args()
    if options.crate_files:
        write_crate_files(options.crate_files)
        return
    kinds, reading, writing = compare(options.driver, record_cases.all_cases(options.seed))
    report("cases of each kind", kinds)
    report("replies to reading", reading)
    report("replies to writing", writing)
    require_all("reading", reading, READING_REPLIES)
    require_all("writing", writing, WRITING_REPLIES)
    print(f"{sum(kinds.values())} cases, every byte equal")


if __name__ == "__main__":
    main()
