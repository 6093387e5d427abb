"""The 32-byte record of document 01, "The 32-byte record", with document 02's border (K2) and angle (K7): from options,
to and from bytes, and in words."""
import math
import struct
from dataclasses import dataclass
from fractions import Fraction

# width, height, direction, border, border value, filter, blur length, iterations, q, angle, estimate
LAYOUT = struct.Struct("<HHBBBBHHIdd")
SIZE = LAYOUT.size
DIRECTIONS = ["Horizontal", "DownRight", "Vertical", "DownLeft"]
BORDERS = ["replicate", "reflect", "constant", "wrap"]
RESTORATION, UNSHARP, BINOMIAL = 1, 2, 3
FILTERS = {"restoration": RESTORATION, "unsharp": UNSHARP, "binomial": BINOMIAL}
LARGEST_SIDE, MOST_ITERATIONS = 1024, 22
FACTOR_LIMITS = {RESTORATION: 1, UNSHARP: 8}
FACTOR_NAMES = {RESTORATION: "relaxation", UNSHARP: "gain"}


class Refused(Exception):
    """A refusal of the documents, by its number, with the reason."""

    def __init__(self, number, reason):
        super().__init__(f"refused {number}: {reason}")
        self.number = number
        self.reason = reason


@dataclass(frozen=True)
class Record:
    width: int
    height: int
    filter: int
    length: int = 0
    iterations: int = 0
    factor: float = 0.0
    border: int = 0
    border_value: int = 0
    angle: float = 0.0
    direction: int = 0
    estimate: float = 0.0

    def is_job(self):
        return self.direction == 0 and is_zero(self.estimate)

    def is_whole_job(self):
        return self.filter == RESTORATION and self.length == 0


def is_zero(number):
    """Whether a double's bits are all zero, which -0.0's are not."""
    return number == 0 and math.copysign(1, number) > 0


def q_of(factor):
    """The factor times 65,536, rounded half away from zero; no factor is negative."""
    return math.floor(Fraction(factor) * 65536 + Fraction(1, 2))


def from_angle(angle):
    """Document 01, "Direction from an angle": the direction's number; None where there is none (document 02, K7)."""
    degrees = angle * 57.29577951308232
    if not math.isfinite(degrees):
        return None
    rest = math.fmod(degrees, 180.0)
    turns = (rest + 180.0 if rest < 0 else rest) / 45.0
    return sum(turns >= limit for limit in [0.5, 1.5, 2.5, 3.5]) % 4


# ---- the limits


def size_faults(record):
    for name, side in [("width", record.width), ("height", record.height)]:
        if side < 1:
            yield 1, f"{name} {side} is below 1"
    for name, side in [("width", record.width), ("height", record.height)]:
        if side > LARGEST_SIDE:
            yield 2, f"{name} {side} is above {LARGEST_SIDE}"


def length_faults(record):
    most = 2 * max(record.width, record.height) + 1
    if record.is_whole_job():
        if not is_zero(record.angle):
            yield 7, "a whole job (length 0) has angle 0"
    elif record.length < 3:
        yield 7, f"blur length {record.length} is below 3"
    elif record.length % 2 == 0:
        yield 7, f"blur length {record.length} is even"
    elif record.length > most:
        yield 7, f"blur length {record.length} is above {most}, which is 2 x the longer side + 1"
    if not math.isfinite(record.angle):
        yield 7, f"angle {record.angle} is not finite"
    elif from_angle(record.angle) is None:
        yield 7, f"angle {record.angle!r} has no direction: its value in degrees is not finite"


def factor_faults(record):
    if record.filter == RESTORATION and record.iterations < 1:
        yield 8, f"iterations {record.iterations} are below 1"
    if not 0 <= record.factor <= FACTOR_LIMITS[record.filter]:
        yield 8, f"{FACTOR_NAMES[record.filter]} {record.factor} is not in 0..{FACTOR_LIMITS[record.filter]}"
    if record.filter == RESTORATION and record.iterations > MOST_ITERATIONS:
        yield 9, f"iterations {record.iterations} are above {MOST_ITERATIONS}"


def line_faults(record):
    """What both line filters ask, in the order of document 01's refusals."""
    yield from length_faults(record)
    yield from factor_faults(record)
    if record.filter == UNSHARP and record.iterations != 0:
        yield 13, "line unsharp has 0 iterations"
    if record.direction >= len(DIRECTIONS):
        yield 13, f"direction {record.direction} is not in 0..3"
    if record.border >= len(BORDERS):
        yield 13, f"border {record.border} is not in 0..3"
    if record.border_value != 0 and record.border != BORDERS.index("constant"):
        yield 13, "a border value stands without the constant border"
    if not is_zero(record.estimate) and not (record.estimate > 0 and math.isfinite(record.estimate)):
        yield 13, f"estimate {record.estimate} is neither zero bits nor positive and finite"
    if record.is_whole_job() and not record.is_job():
        yield 13, "length 0 stands only in a job"


def binomial_faults(record):
    plain = Record(record.width, record.height, BINOMIAL)
    if record != plain or not (is_zero(record.angle) and is_zero(record.estimate)):
        yield 13, "the binomial has 0 in all behind height but filter"


def faults(record):
    """Each limit that the record breaks, as a refusal's number and a reason, first match first."""
    yield from size_faults(record)
    if record.filter == BINOMIAL:
        yield from binomial_faults(record)
    elif record.filter in FACTOR_LIMITS:
        yield from line_faults(record)
    else:
        yield 13, f"filter {record.filter} is not in 1..3"


# ---- bytes


def write(record):
    """The record's 32 bytes, or the refusal."""
    for number, reason in faults(record):
        raise Refused(number, reason)
    return LAYOUT.pack(
        record.width, record.height, record.direction, record.border, record.border_value, record.filter,
        record.length, record.iterations, q_of(record.factor), record.angle, record.estimate,
    )


def read(data):
    """The record in 32 bytes, or refusal 13."""
    if len(data) != SIZE:
        raise Refused(13, f"a record has {SIZE} bytes, not {len(data)}")
    width, height, direction, border, value, kind, length, iterations, q, angle, estimate = LAYOUT.unpack(data)
    record = Record(width, height, kind, length, iterations, q / 65536, border, value, angle, direction, estimate)
    for _, reason in faults(record):
        raise Refused(13, reason)
    return record


# ---- options


def add_options(parser):
    """The options of a job, but for the picture's size."""
    parser.add_argument("--filter", choices=FILTERS, default="restoration", help="default: restoration")
    parser.add_argument(
        "--length", type=int, metavar="L",
        help="blur length, odd, from 3; without it restoration is the whole job, which measures direction and length",
    )
    parser.add_argument(
        "--angle", type=float, metavar="RADIANS", help="the smear's angle, with a length, finite in degrees (default 0)"
    )
    parser.add_argument("--iterations", type=int, metavar="N", help="restoration: 1 to 22 (default 3)")
    parser.add_argument("--relaxation", type=float, metavar="R", help="restoration: 0 to 1 (default 1)")
    parser.add_argument("--gain", type=float, metavar="G", help="line unsharp: 0 to 8 (default 1.5)")
    parser.add_argument(
        "--border", choices=BORDERS,
        help="what lies beyond a line's ends (default replicate); wrap, its other end, is for one full turn of a drum",
    )
    parser.add_argument(
        "--border-value", type=int, metavar="V", help="grey level of the constant border, 0 to 255 (default 0)"
    )


# the options that each filter takes
TAKEN = {
    "restoration": ["length", "angle", "iterations", "relaxation", "border", "border_value"],
    "unsharp": ["length", "angle", "gain", "border", "border_value"],
    "binomial": [],
}


def from_options(options, width, height):
    """The job that the options ask for; a ValueError where they do not fit together."""
    known = sum(TAKEN.values(), [])
    given = {name: value for name, value in vars(options).items() if name in known and value is not None}
    for name in given.keys() - set(TAKEN[options.filter]):
        raise ValueError(f"--{name.replace('_', '-')} has no meaning with --filter {options.filter}")
    if options.filter == "unsharp" and "length" not in given:
        raise ValueError("--filter unsharp needs --length")
    if "angle" in given and "length" not in given:
        raise ValueError("--angle needs --length: without a length the whole job measures both")
    if given.get("length") == 0:
        raise ValueError("--length 0: leave --length out for the whole job")
    if not 0 <= given.get("border_value", 0) <= 255:
        raise ValueError("--border-value is 0 to 255")
    kind = FILTERS[options.filter]
    if kind == BINOMIAL:
        return Record(width, height, kind)
    return Record(
        width, height, kind,
        length=given.get("length", 0),
        iterations=given.get("iterations", 3) if kind == RESTORATION else 0,
        factor=given.get("relaxation", 1.0) if kind == RESTORATION else given.get("gain", 1.5),
        border=BORDERS.index(given.get("border", "replicate")),
        border_value=given.get("border_value", 0),
        angle=given.get("angle", 0.0),
    )


# ---- words


def filter_words(record):
    if record.filter == BINOMIAL:
        return "binomial unsharp"
    factor = f"{FACTOR_NAMES[record.filter]} {record.factor:g} (q {q_of(record.factor)})"
    if record.filter == UNSHARP:
        return f"line unsharp, {factor}"
    return f"restoration, {record.iterations} iteration{'s' * (record.iterations > 1)}, {factor}"


def kind_words(record):
    if not record.is_job():
        return "result"
    if record.is_whole_job():
        return "job: the whole job, which measures direction and length"
    if from_angle(record.angle) != 0:
        return "job"
    return "job, or its result, which has the same bytes"


def words(record):
    """The record, a line for each thing that it says."""
    lines = [
        kind_words(record),
        f"  picture    {record.width} by {record.height} pixels",
        f"  filter     {filter_words(record)}",
    ]
    if record.filter != BINOMIAL:
        value = f" {record.border_value}" if record.border == BORDERS.index("constant") else ""
        lines.append(f"  border     {BORDERS[record.border]}{value}")
    if record.length:
        direction = from_angle(record.angle) if record.is_job() else record.direction
        angle = f", from the angle {record.angle!r}" if record.angle else ""
        lines.append(f"  direction  {DIRECTIONS[direction]}{angle}")
        lines.append(f"  length     {record.length}")
    if not is_zero(record.estimate):
        lines.append(f"  estimate   {record.estimate!r} pixels")
    return "\n".join(lines)
