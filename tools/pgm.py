"""Binary PGM (P5) through the proved library (document 02, K3); and where that refuses a file, why, in words."""
import re
from ctypes import POINTER, byref, c_char_p, c_size_t, create_string_buffer

import library
from records import LARGEST_SIDE, Refused

# the most bytes that the library writes before the pixels
LONGEST_HEADER = 17

# ---- through the library


def read(data):
    """Width, height and pixels of the picture in a file's bytes."""
    call = library.function("smear_read_pgm", c_char_p, c_size_t, *3 * [POINTER(c_size_t)])
    answers = [c_size_t(), c_size_t(), c_size_t()]
    number = call(data, len(data), *map(byref, answers))
    if number != 0:
        raise Refused(number, reason(data, number))
    width, height, start = (answer.value for answer in answers)
    return width, height, data[start:]


def write(width, height, pixels):
    """The file's bytes of a picture, whose pixels stand row by row."""
    call = library.function("smear_write_pgm", c_char_p, *4 * [c_size_t], c_char_p, c_size_t, POINTER(c_size_t))
    out, written = create_string_buffer(LONGEST_HEADER + len(pixels)), c_size_t()
    number = call(pixels, len(pixels), width, height, width, out, len(out), byref(written))
    if number != 0:
        raise Refused(number, f"{width} by {height}, and a side of a P5 file has 1 to {LARGEST_SIDE:,} pixels")
    return out.raw[: written.value]


# ---- why a file is refused


SEPARATOR = re.compile(rb"(?:[ \t\n\r]+|#[^\n\r]*[\n\r])+")
NUMBER = re.compile(rb"[0-9]+")
# the parts of a header, and what to call them
PARTS = [
    (re.compile(rb"P"), "the P of P5"),
    (re.compile(rb"5"), "the 5 of P5"),
    (SEPARATOR, "a white byte or a comment behind P5"),
    (NUMBER, "the width"),
    (SEPARATOR, "a white byte or a comment behind the width"),
    (NUMBER, "the height"),
    (SEPARATOR, "a white byte or a comment behind the height"),
    (NUMBER, "the maximum"),
    (re.compile(rb"[ \t\n\r]"), "the one white byte behind the maximum"),
]


def shown(byte):
    return repr(chr(byte)) if 32 <= byte < 127 else f"0x{byte:02X}"


def header(data):
    """The matches of width, height and maximum, and where the pixels start."""
    numbers, place = [], 0
    for form, name in PARTS:
        part = form.match(data, place)
        if part is None and data[place : place + 1] == b"#" and form in (SEPARATOR, NUMBER):
            raise Refused(14, f"the file ends at byte {len(data)}, in the comment that begins at byte {place}")
        if part is None and place == len(data):
            raise Refused(14, f"the file ends at byte {place}, where {name} belongs")
        if part is None:
            raise Refused(14, f"byte {place} is {shown(data[place])}, where {name} belongs")
        if form is NUMBER:
            numbers.append(part)
        place = part.end()
    return numbers, place


def digits(number):
    """The number's digits without leading zeros: it may have more than Python makes an int of."""
    return number[0].decode("ascii").lstrip("0") or "0"


def is_above(number, limit):
    return len(digits(number)) > len(str(limit)) or int(digits(number)) > limit


def told(number):
    """The number, or the front of a very long one, and where it stands."""
    text, first, last = digits(number), number.start(), number.end() - 1
    if len(text) > 40:
        text = f"{text[:20]}.. of {len(text)} digits"
    return f"{text} (byte {first})" if first == last else f"{text} (bytes {first} to {last})"


def judge(data):
    """Raises the refusal of a file that is refused."""
    (width, height, maximum), start = header(data)
    sides = [("width", width), ("height", height)]
    for name, side in sides:
        if not is_above(side, 0):
            raise Refused(1, f"{name} {told(side)}, and no side may be 0")
    for name, side in sides:
        if is_above(side, LARGEST_SIDE):
            raise Refused(2, f"{name} {told(side)} is above {LARGEST_SIDE:,}")
    if digits(maximum) != "255":
        raise Refused(15, f"maximum {told(maximum)}, and only 255 is read")
    across, down, held = int(digits(width)), int(digits(height)), len(data) - start
    if held != across * down:
        raise Refused(16, f"{held} pixel bytes from byte {start} on, and {across} by {down} need {across * down}")


def reason(data, number):
    """Why the library refuses a file with this number."""
    try:
        judge(data)
    except Refused as refused:
        if refused.number == number:
            return refused.reason
    raise library.Failed(f"the library refuses a P5 file with {number}, for which no reason is found")
