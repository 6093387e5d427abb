"""Half-size pictures through the proved library (document 02, K8); and where that refuses one, why, in words."""
from ctypes import c_char_p, c_size_t, create_string_buffer

import library
from records import LARGEST_SIDE, Refused

# the most halvings of one call
MOST = 10


def halved(width, height, pixels, count):
    """Width, height and pixels of a picture after so many halvings, each of which rounds."""
    if count < 0:
        raise ValueError(f"a picture is halved 0 to {MOST} times, not {count}")
    call = library.function("smear_halve", *library.PICTURE, *library.PICTURE, c_size_t, c_char_p, c_size_t)
    size, across, down = len(pixels), width >> count, height >> count
    out, scratch = create_string_buffer(across * down), create_string_buffer(size)
    # any count above the most is refused alike, also one that the library has no number for
    number = call(
        pixels, size, width, height, width, out, len(out), across, down, across, min(count, MOST + 1), scratch, size
    )
    if number != 0:
        raise Refused(number, reason(width, height, count, number))
    return across, down, out.raw


def most(width, height):
    """How often a picture can be halved."""
    return min(width.bit_length() - 1, height.bit_length() - 1, MOST)


def reason(width, height, count, number):
    """Why the library refuses with this number to halve a picture so often."""
    if number == 2 and max(width, height) > LARGEST_SIDE:
        return f"{width} by {height} pixels, and a picture that is halved has at most {LARGEST_SIDE:,} a side"
    if number == 18 and count > MOST:
        return f"{count} halvings, and a picture is halved at most {MOST} times"
    times = most(width, height)
    if number == 18 and count > times:
        often = f"{times} time{'s' * (times != 1)}"
        return f"{width} by {height} pixels can be halved {often}, not {count}: none starts from a side below 2"
    raise library.Failed(f"the library refuses a halving with {number}, for which no reason is found")
