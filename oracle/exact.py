#!/usr/bin/env python3
"""Holds the whole job to document 01's exact run, in fractions of Python's own.

Small random jobs go through the C interface (smear_restore, then smear_van_cittert_estimate for every k up to the
iterations). The exact run is computed here from the document's words alone:
N(k+1) = S * Nk + q * (L * S^k * B - window sum of Nk). Every estimate and every destination byte must lie within
demand 3's bounds; the largest error / bound seen is printed for each k. The borders take turns, Wrap among them.
The exact run obeys document 02's floor (K6): 17 must be given where the confidence, by sums that are taken here, is
below it, and nowhere else.

Usage: oracle/exact.py [--seed N] [--count N]     (tools/library.py makes what it calls)
"""
import argparse
import ctypes
import math
import os
import random
import sys
from fractions import Fraction

ROOT = os.path.dirname(os.path.dirname(os.path.abspath(__file__)))
sys.path.insert(0, os.path.join(ROOT, "tools"))
import library  # noqa: E402

STEPS = [(1, 0), (1, 1), (0, 1), (-1, 1)]
ANGLES = [0.0, 0.75, 1.5, 2.25]
BORDERS = ["Replicate", "Reflect", "Constant", "Wrap"]
# the Sobel gradient's places across its direction, with their weights
SMOOTH = [(-1, 1), (0, 2), (1, 1)]


class Swing(ctypes.Structure):
    _fields_ = [("width", ctypes.c_double), ("swing", ctypes.c_int32)]


def line_through(x, y, w, h, step):
    """The pixels of the line through (x, y), and the place of (x, y) there."""
    dx, dy = step
    while 0 <= x - dx < w and 0 <= y - dy < h:
        x, y = x - dx, y - dy
    pixels = []
    while 0 <= x < w and 0 <= y < h:
        pixels.append((x, y))
        x, y = x + dx, y + dy
    return pixels


def source_of(p, n, border):
    """A place of the line, or None where the border is a value."""
    if border == 0:
        return min(max(p, 0), n - 1)
    if border == 1:
        if n == 1:
            return 0
        r = p % (2 * n - 2)
        return min(r, 2 * n - 2 - r)
    if border == 3:
        return p % n
    return p if 0 <= p < n else None


def sums_of(picture, w, h):
    """A, C and E, from the Sobel gradients at the interior pixels."""
    a = c = e = 0
    for y in range(1, h - 1):
        for x in range(1, w - 1):
            gx = sum(k * (picture[(y + d) * w + x + 1] - picture[(y + d) * w + x - 1]) for d, k in SMOOTH)
            gy = sum(k * (picture[(y + 1) * w + x + d] - picture[(y - 1) * w + x + d]) for d, k in SMOOTH)
            a, c, e = a + gx * gx, c + gx * gy, e + gy * gy
    return a, c, e


def reaches(floor, a, c, e):
    """Whether the confidence is at least floor / 256."""
    if a + e == 0:
        return floor == 0
    return floor <= 256 and (512 - floor) ** 2 * ((a - e) ** 2 + 4 * c**2) >= floor**2 * (a + e) ** 2


def exact_run(picture, w, h, step, length, q, border, value, iterations):
    """The exact values after 1, 2, .. iterations, as fractions, by pixel."""
    values = [{} for _ in range(iterations)]
    scale = 65536 * length
    done = set()
    for y in range(h):
        for x in range(w):
            if (x, y) in done:
                continue
            line = line_through(x, y, w, h, step)
            done.update(line)
            n = len(line)
            b = [picture[r * w + c] for c, r in line]
            now = list(b)
            for k in range(iterations):
                power = scale**k
                window = []
                for p in range(n):
                    places = [source_of(u, n, border) for u in range(p - length // 2, p + length // 2 + 1)]
                    window.append(sum(value * power if i is None else now[i] for i in places))
                now = [scale * now[p] + q * (length * power * b[p] - window[p]) for p in range(n)]
                for p, pixel in enumerate(line):
                    values[k][pixel] = Fraction(now[p], scale ** (k + 1))
    return values


def main():
    parser = argparse.ArgumentParser()
    parser.add_argument("--seed", type=int, default=1)
    parser.add_argument("--count", type=int, default=300)
    args = parser.parse_args()
    rng = random.Random(args.seed)
    lib = library.loaded()
    lib.smear_restore.restype = lib.smear_van_cittert_estimate.restype = ctypes.c_uint8
    worst, accepted, refused, by_border = {}, 0, {}, [0, 0, 0, 0]
    while accepted < args.count:
        w, h = rng.randint(3, 14), rng.randint(3, 14)
        bar, axis = rng.randint(2, 5), rng.randrange(4)
        dx, dy = [(0, 1), (1, -1), (1, 0), (1, 1)][axis]
        picture = bytes(
            min(255, max(0, (200 if (x * dx + y * dy) // bar % 2 else 40) + rng.randint(-40, 40)))
            for y in range(h)
            for x in range(w)
        )
        iterations = rng.randint(1, 6)
        relaxation = rng.choice([1.0, 1.0, 0.5, 0.1, rng.random(), 65535 / 65536])
        border, value = accepted % 4, rng.randrange(256)
        sums = sums_of(picture, w, h)
        largest = max(floor for floor in range(257) if reaches(floor, *sums))
        floor = rng.choice([0, 0, largest, largest, largest + 1, rng.randrange(257), 257])
        size, lent = w * h, 3 * max(w, h)
        dst = (ctypes.c_uint8 * size)()
        scratch = (ctypes.c_int32 * lent)()
        swings = (Swing * size)()
        direction, blur_length, estimate = ctypes.c_uint8(9), ctypes.c_size_t(0), ctypes.c_double(0)
        z, d = ctypes.c_size_t, ctypes.c_double
        code = lib.smear_restore(
            picture, z(size), z(w), z(h), z(w), dst, z(size), z(w), z(h), z(w),
            z(1 + rng.randrange(4)), ctypes.c_uint8(24), ctypes.c_uint16(floor),
            z(iterations), d(relaxation), ctypes.c_uint8(border), ctypes.c_uint8(value),
            scratch, z(lent), swings, z(size),
            ctypes.byref(direction), ctypes.byref(blur_length), ctypes.byref(estimate))
        if (code == 17) == reaches(floor, *sums):
            sys.exit(f"a picture whose A, C and E are {sums} gives {code} at the floor {floor}")
        if code:
            refused[code] = refused.get(code, 0) + 1
            continue
        accepted += 1
        by_border[border] += 1
        length, q = blur_length.value, math.floor(Fraction(relaxation) * 65536 + Fraction(1, 2))
        assert length == max(3, math.ceil(estimate.value) | 1), (length, estimate.value)
        exact = exact_run(picture, w, h, STEPS[direction.value], length, q, border, value, iterations)
        for k in range(1, iterations + 1):
            estimates = (ctypes.c_int32 * size)()
            used = ctypes.c_uint8(9)
            code = lib.smear_van_cittert_estimate(
                picture, z(size), z(w), z(h), z(w), estimates, z(size),
                d(ANGLES[direction.value]), z(length), z(k), d(relaxation),
                ctypes.c_uint8(border), ctypes.c_uint8(value),
                scratch, z(lent), ctypes.byref(used))
            assert code == 0 and used.value == direction.value
            bound = 2**k - 1 if q == 65536 else 2 ** (k + 1) - 2
            for (x, y), v in exact[k - 1].items():
                found = estimates[y * w + x]
                error = abs(found - v)
                if error >= bound:
                    sys.exit(f"estimate after {k} at ({x}, {y}): {found}, exact {float(v)}, bound {bound}")
                key = (k, q == 65536)
                worst[key] = max(worst.get(key, 0), error / bound)
                if k == iterations:
                    byte = dst[y * w + x]
                    assert byte == min(255, max(0, found))
                    if abs(byte - min(Fraction(255), max(Fraction(0), v))) >= bound:
                        sys.exit(f"byte at ({x}, {y}): {byte}, exact {float(v)}")
    borders = ", ".join(f"{count} {name}" for count, name in zip(by_border, BORDERS))
    print(f"exact: {accepted} jobs within the bounds ({borders}); refused {dict(sorted(refused.items()))}")
    for (k, one), ratio in sorted(worst.items()):
        print(f"  after {k}{' at relaxation 1' if one else '':17}: largest error / bound {float(ratio):.3f}")


main()
