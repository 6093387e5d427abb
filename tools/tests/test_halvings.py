"""Half-size pictures through the library: document 02's cases, and the words for what is refused."""
import random
import unittest
from fractions import Fraction
from math import floor
from unittest import mock

import halvings
import library
from records import Refused

# document 02, K8: an odd last column and row are left out
FIVE = bytes([0, 1, 255, 255, 9, 1, 1, 255, 254, 9, 10, 20, 30, 40, 9, 50, 60, 70, 80, 9, 9, 9, 9, 9, 9])
# .. each halving rounds: one mean over the sixteen would give 1
FOUR = bytes([1, 2, 1, 1, 2, 2, 0, 0, 2, 1, 2, 2, 0, 0, 1, 1])


def restated(width, height, pixels, count):
    """The same by fractions: the mean of each two by two, to the nearest whole number, of two the greater."""
    if count == 0:
        return width, height, pixels
    rows = [pixels[start : start + width] for start in range(0, width * height, width)]
    means = [
        Fraction(sum(rows[r][c : c + 2] + rows[r + 1][c : c + 2]), 4)
        for r in range(0, height - 1, 2) for c in range(0, width - 1, 2)
    ]
    return restated(width // 2, height // 2, bytes(floor(mean + Fraction(1, 2)) for mean in means), count - 1)


class Halvings(unittest.TestCase):
    def test_cases(self):
        self.assertEqual(halvings.halved(5, 5, FIVE, 0), (5, 5, FIVE))
        self.assertEqual(halvings.halved(5, 5, FIVE, 1), (2, 2, bytes([1, 255, 35, 55])))
        self.assertEqual(halvings.halved(5, 5, FIVE, 2), (1, 1, bytes([87])))
        self.assertEqual(halvings.halved(4, 4, FOUR, 1), (2, 2, bytes([2, 1, 1, 2])))
        self.assertEqual(halvings.halved(4, 4, FOUR, 2), (1, 1, bytes([2])))

    def test_random_pictures(self):
        rng = random.Random(1)
        for _ in range(300):
            width, height = rng.randint(1, 40), rng.randint(1, 40)
            pixels = rng.choice([rng.randbytes, lambda n: bytes(rng.choices([0, 1, 254, 255], k=n))])(width * height)
            for count in range(halvings.most(width, height) + 1):
                given = halvings.halved(width, height, pixels, count)
                self.assertEqual(given, restated(width, height, pixels, count), (width, height, count))

    def test_largest_picture(self):
        pixels = bytes(range(256)) * 4096
        self.assertEqual(halvings.halved(1024, 1024, pixels, 10), restated(1024, 1024, pixels, 10))

    def refused(self, width, height, count, words):
        with self.assertRaises(Refused) as caught:
            halvings.halved(width, height, bytes(width * height), count)
        self.assertEqual(str(caught.exception), f"refused {words}")

    def test_words(self):
        below = "none starts from a side below 2"
        for width, height, count, words in [
            (3, 3, 2, f"18: 3 by 3 pixels can be halved 1 time, not 2: {below}"),
            (1, 9, 1, f"18: 1 by 9 pixels can be halved 0 times, not 1: {below}"),
            (1023, 1024, 10, f"18: 1023 by 1024 pixels can be halved 9 times, not 10: {below}"),
            (1024, 1024, 11, "18: 11 halvings, and a picture is halved at most 10 times"),
            (3, 3, 2**64, f"18: {2**64} halvings, and a picture is halved at most 10 times"),
            (1025, 2, 1, "2: 1025 by 2 pixels, and a picture that is halved has at most 1,024 a side"),
            (2, 1025, 11, "2: 2 by 1025 pixels, and a picture that is halved has at most 1,024 a side"),
        ]:
            self.refused(width, height, count, words)
        with self.assertRaisesRegex(ValueError, "a picture is halved 0 to 10 times, not -1"):
            halvings.halved(4, 4, FOUR, -1)

    def test_number_without_a_reason(self):
        for number in [1, 2, 5, 6, 10, 18]:
            with mock.patch.object(library, "function", lambda *_, number=number: lambda *_: number):
                with self.assertRaisesRegex(library.Failed, f"refuses a halving with {number}, for which no reason"):
                    halvings.halved(4, 4, FOUR, 2)
