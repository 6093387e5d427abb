"""The round sheet over a file of records (document 02, K1): what the program `sheet` says of it, as a table, for other
programs, and where it is refused, why."""
import os
import re
import subprocess
from dataclasses import asdict, dataclass

import records

PROGRAM = os.path.join(os.path.dirname(os.path.abspath(__file__)), "program")
MOST_RECORDS = 1_000_000
# four lines of five numbers, and one of one
GIVEN = re.compile(rb"(?:\d+(?: \d+){4}\n){4}\d+\n")
REFUSED = re.compile(rb"refused 13 (\d+)\n")


class Failed(Exception):
    """What kept the sheet from being made, beside a refusal."""


@dataclass(frozen=True)
class Smears:
    """The blur lengths of one direction's records."""

    count: int
    total: int
    largest: int
    mean: int
    remainder: int


@dataclass(frozen=True)
class Sheet:
    # in the order of records.DIRECTIONS
    directions: list
    binomials: int

    def count(self):
        return sum(smears.count for smears in self.directions) + self.binomials


# ---- from the program


def said(file):
    """What the program says of an open file."""
    done = subprocess.run([PROGRAM, "sheet"], stdin=file, stdout=subprocess.PIPE, check=False)
    if done.returncode != 0:
        raise Failed("the program did not run")
    return done.stdout


def given(answer, size):
    """The sheet that the program gives of a file of so many bytes."""
    if not GIVEN.fullmatch(answer):
        raise Failed(f"the program says {answer.decode('ascii', 'replace')!r}")
    *lines, binomials = answer.splitlines()
    sheet = Sheet([Smears(*map(int, line.split())) for line in lines], int(binomials))
    # to the program a read that fails is the file's end
    if sheet.count() * records.SIZE != size:
        raise Failed(f"the sheet has {sheet.count()} records, and the file {size} bytes: it was not read to its end")
    return sheet


def refusal(index, part):
    """The refusal of a file for its part at an index: why, and the part in words, or in hex where it does not read."""
    reasons = [f"a sheet takes at most {MOST_RECORDS:,} records"] if index >= MOST_RECORDS else []
    try:
        record = records.read(part)
        shown = records.words(record)
        if record.is_whole_job():
            reasons.append("a job without a length has no place on the sheet")
    except records.Refused as refused:
        shown = part.hex(" ")
        reasons.append(f"it does not read: {refused.reason}")
    if not reasons:
        raise Failed(f"the program refuses record {index}, which is a good one: the file was not read as it is")
    return records.Refused(13, f"record {index}, counted from 0: {'; '.join(reasons)}\n{shown}")


def of_file(path):
    """The sheet over a file, or its refusal."""
    with open(path, "rb", buffering=0) as file:
        if not file.seekable():
            raise Failed(f"{path} is a pipe, whose size is not known: give a file")
        size = file.seek(0, os.SEEK_END)
        file.seek(0)
        answer = said(file)
        if refused := REFUSED.fullmatch(answer):
            index = int(refused[1])
            file.seek(index * records.SIZE)
            raise refusal(index, file.read(records.SIZE))
    return given(answer, size)


# ---- for readers


def mean(smears):
    """The mean to three decimals, rounded half up."""
    count = max(smears.count, 1)
    thousandths = 1000 * smears.mean + (2 * 1000 * smears.remainder + count) // (2 * count)
    return f"{thousandths // 1000}.{thousandths % 1000:03}"


def table(sheet):
    """The sheet for people: a head, a line for each direction, and the binomials."""
    line = "{:<10} {:>9} {:>12} {:>9} {:>10}".format
    lines = [line("direction", "records", "total length", "largest", "mean")]
    for name, smears in zip(records.DIRECTIONS, sheet.directions):
        lines.append(line(name, smears.count, smears.total, smears.largest, mean(smears)))
    return "\n".join([*lines, f"{'binomial':<10} {sheet.binomials:>9}"])


def plain(sheet):
    """The sheet for programs, of numbers and names alone."""
    directions = dict(zip(records.DIRECTIONS, map(asdict, sheet.directions)))
    return {"directions": directions, "binomials": sheet.binomials}
