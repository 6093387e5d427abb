"""The whole job through the proved library, for the setting that a record has not: a floor of the direction's
confidence (document 02, K6)."""
from ctypes import POINTER, Structure, byref, c_double, c_int32, c_size_t, c_uint8, c_uint16, create_string_buffer
from dataclasses import replace

import library
import records

# a confidence of 1, in 256ths
LARGEST_FLOOR = 256
# the thresholds that a record's whole job has
TRANSITIONS, AMPLITUDE = 8, 24


class Swing(Structure):
    _fields_ = [("width", c_double), ("swing", c_int32)]


SETTINGS = [c_size_t, c_uint8, c_uint16, c_size_t, c_double, c_uint8, c_uint8]
LENT = [POINTER(c_int32), c_size_t, POINTER(Swing), c_size_t]
MEASURED = [POINTER(c_uint8), POINTER(c_size_t), POINTER(c_double)]


def answer(job, pixels, floor):
    """What the program would answer to the record of a whole job and its picture, if the record had a floor."""
    call = library.function("smear_restore", *library.PICTURE, *library.PICTURE, *SETTINGS, *LENT, *MEASURED)
    size, layout = len(pixels), (job.width, job.height, job.width)
    out, scratch, swings = create_string_buffer(size), (c_int32 * (3 * max(layout)))(), (Swing * size)()
    direction, length, estimate = c_uint8(), c_size_t(), c_double()
    number = call(
        pixels, size, *layout, out, size, *layout,
        TRANSITIONS, AMPLITUDE, floor, job.iterations, job.factor, job.border, job.border_value,
        scratch, len(scratch), swings, size, byref(direction), byref(length), byref(estimate),
    )
    if number != 0:
        return b"refused %d\n" % number
    result = replace(job, direction=direction.value, length=length.value, estimate=estimate.value)
    return out.raw + records.write(result)
