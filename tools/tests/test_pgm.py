"""Binary PGM through the library: document 02's cases, and the words for files that are refused."""
import os
import random
import re
import shutil
import tempfile
import unittest
from unittest import mock

import library
import pgm
from records import Refused

ROW = bytes([10, 10, 40, 10, 10])
# the form of a header, at once
SEPARATOR = rb"(?:[ \t\n\r]|#[^\n\r]*[\n\r])+"
HEADER = re.compile(rb"P5" + 3 * (SEPARATOR + rb"([0-9]+)") + rb"[ \t\n\r]")
# what the front of a header can go on with; LF first where it ends in a comment
ENDINGS = [line + b"P5 1 1 1 "[start:] for start in range(10) for line in (b"", b"\n")]
# what the words for 14 say that belongs there, with bytes that do
BELONGING = {
    "the P of P5": [b"P"],
    "the 5 of P5": [b"5"],
    "the width": [b"1"],
    "the height": [b"1"],
    "the maximum": [b"1"],
    "the one white byte behind the maximum": [b" ", b"\t", b"\n", b"\r"],
    **{f"a white byte or a comment behind {name}": [b" ", b"#"] for name in ("P5", "the width", "the height")},
}


def goes_on(front):
    """Whether a header begins so."""
    return any(HEADER.match(front + ending) for ending in ENDINGS)


def mutated(rng, data):
    """The bytes with some of them replaced, left out or put in, or without an end."""
    data = bytearray(data)
    for _ in range(rng.choice([0, 1, 1, 1, 2, 4])):
        place = rng.randrange(len(data) + 1)
        byte = rng.choice(b"P5#\n\r\t 019x\0\x0b\x0c\x85\xa0") if rng.random() < 0.9 else rng.randrange(256)
        data[place : place + rng.choice([0, 1, 1])] = rng.choice([b"", bytes([byte])])
    return bytes(data[: rng.randrange(len(data) + 1)] if rng.random() < 0.1 else data)


def files(count):
    """Files of all kinds, most of them refused."""
    rng = random.Random(1)
    gaps = [b" ", b"\n", b"\t", b"\r\n", b"#c\n", b"#\r", b" # a\n#b\r ", b"\r#255 \n"]
    odd = [b"0", b"00", b"1024", b"1025", b"99999", b"18446744073709551621", b"7" * 40, b"8" * 41, b"0" * 300]
    for _ in range(count):
        width, height = rng.randint(1, 6), rng.randint(1, 4)
        numbers = [b"%d" % width, b"%03d" % height, b"255"]
        if rng.random() < 0.4:
            numbers[rng.randrange(3)] = rng.choice(odd)
        if rng.random() < 0.1:
            numbers[2] = rng.choice([b"0", b"1", b"254", b"256", b"65535", b"18446744073709551871"])
        pixels = rng.randbytes(width * height + rng.choice([0, 0, 0, 1, -1, 9]))
        header = b"P5" + b"".join(rng.choice(gaps) + number for number in numbers)
        yield mutated(rng, header + rng.choice(b" \t\n\r").to_bytes(1, "little") + pixels)


class Files(unittest.TestCase):
    def test_row(self):
        file = bytes.fromhex("50 35 0A 35 0A 31 0A 32 35 35 0A 0A 0A 28 0A 0A")
        self.assertEqual(pgm.write(5, 1, ROW), file)
        self.assertEqual(pgm.read(file), (5, 1, ROW))

    def test_headers(self):
        zeros = b"0" * 5000
        for header in [
            b"P5 5 1 255\n", b"P5#a\r5#b\n1 \t255 ", b"P5\n# a comment\n5 1\n# another\n255\n",
            b"P5 " + zeros + b"5 " + zeros + b"1 " + zeros + b"255\r",
        ]:
            self.assertEqual(pgm.read(header + ROW), (5, 1, ROW))

    def test_longest_header(self):
        pixels = bytes(1024 * 1024)
        self.assertEqual(pgm.write(1024, 1024, pixels), b"P5\n1024\n1024\n255\n" + pixels)

    def test_side_that_is_not_written(self):
        for width, height, number in [(1025, 1, 2), (1, 1025, 2), (0, 1, 1)]:
            words = f"refused {number}: {width} by {height}, and a side of a P5 file has 1 to 1,024 pixels"
            with self.assertRaisesRegex(Refused, words):
                pgm.write(width, height, bytes(width * height))


class Words(unittest.TestCase):
    def refused(self, data, words):
        with self.assertRaises(Refused) as caught:
            pgm.read(data)
        self.assertEqual(str(caught.exception), f"refused {words}")

    def test_headers(self):
        for data, words in [
            (b"P5 1 1 255#c\n7", "byte 10 is '#', where the one white byte behind the maximum belongs"),
            (b"P5 0 1 255", "the file ends at byte 10, where the one white byte behind the maximum belongs"),
            (b"P5 1 1 #c", "the file ends at byte 9, in the comment that begins at byte 7"),
            (b"P5#", "the file ends at byte 3, in the comment that begins at byte 2"),
            (b"P51 1 255 7", "byte 2 is '1', where a white byte or a comment behind P5 belongs"),
            (b"P5 1\x0b1 255 7", "byte 4 is 0x0B, where a white byte or a comment behind the width belongs"),
            (b"P5 1 -1 255 7", "byte 5 is '-', where the height belongs"),
            (b"P6 1 1 255 7", "byte 1 is '6', where the 5 of P5 belongs"),
            (b"", "the file ends at byte 0, where the P of P5 belongs"),
        ]:
            self.refused(data, f"14: {words}")

    def test_numbers(self):
        for data, words in [
            (b"P5 0 1025 7\n", "1: width 0 (byte 3), and no side may be 0"),
            (b"P5 5 000 255\n", "1: height 0 (bytes 5 to 7), and no side may be 0"),
            (b"P5 2000 1 255\n", "2: width 2000 (bytes 3 to 6) is above 1,024"),
            (b"P5 1 %b 7\n" % (5000 * b"9"), f"2: height {20 * '9'}.. of 5000 digits (bytes 5 to 5004) is above 1,024"),
            (b"P5 1 1 65535\n", "15: maximum 65535 (bytes 7 to 11), and only 255 is read"),
            (b"P5 1 1 7\n", "15: maximum 7 (byte 7), and only 255 is read"),
        ]:
            self.refused(data, words)

    def test_pixels(self):
        for held in [0, 24, 26]:
            words = f"16: {held} pixel bytes from byte 11 on, and 5 by 5 need 25"
            self.refused(b"P5\n5\n5\n255\n" + bytes(held), words)

    def test_long_headers(self):
        for part in [b" ", b"#\n", b"\r#c\n"]:
            data = b"P5" + 200_000 * part
            self.refused(data, f"14: the file ends at byte {len(data)}, where the width belongs")

    def test_verdict_without_a_reason(self):
        for number in [1, 2, 15, 16]:
            with self.assertRaisesRegex(library.Failed, f"with {number}, for which no reason is found"):
                pgm.reason(b"P5 1 1 255", number)
        with self.assertRaisesRegex(library.Failed, "no reason"):
            pgm.reason(b"P5 1 1 255 7", 14)

    def test_words_of_every_refusal_are_true(self):
        count = {}
        for data in files(6000):
            try:
                pgm.read(data)
                number = 0
            except Refused as refused:
                number = refused.number
                with self.subTest(data=data, words=refused.reason):
                    {14: self.true_header, 16: self.true_pixels}.get(number, self.true_number)(data, refused)
            count[number] = count.get(number, 0) + 1
        self.assertEqual(count.keys(), {0, 1, 2, 14, 15, 16})
        self.assertGreater(min(count.values()), 100)

    def true_header(self, data, refused):
        self.assertFalse(HEADER.match(data))
        in_comment = r"the file ends at byte (\d+), in the comment that begins at byte (\d+)"
        if said := re.fullmatch(in_comment, refused.reason):
            end, start = map(int, said.groups())
            self.assertEqual(end, len(data))
            self.assertTrue(goes_on(data[:start] + b"#") and goes_on(data))
            self.assertRegex(data[start:], rb"\A#[^\n\r]*\Z")
            return
        said = re.fullmatch(r"(?:byte (\d+) is (.*)|the file ends at byte (\d+)), where (.*) belongs", refused.reason)
        place = int(said[1] or said[3])
        if said[3]:
            self.assertEqual(place, len(data))
        else:
            self.assertEqual(said[2], pgm.shown(data[place]))
            self.assertFalse(goes_on(data[: place + 1]))
        self.assertTrue(goes_on(data[:place]))
        for byte in BELONGING[said[4]]:
            self.assertTrue(goes_on(data[:place] + byte))

    def true_number(self, data, refused):
        header = HEADER.match(data)
        numbers = dict(zip(["width", "height", "maximum"], range(1, 4)))
        name, digits, place = re.match(r"(\w+) (.+) \(bytes? (.*?)\)", refused.reason).groups()
        first, _, last = place.partition(" to ")
        start, end = header.span(numbers[name])
        self.assertEqual((int(first), int(last or first)), (start, end - 1))
        text = data[start:end].lstrip(b"0").decode() or "0"
        self.assertEqual(digits, text if len(text) <= 40 else f"{text[:20]}.. of {len(text)} digits")
        sides = [int(side.lstrip(b"0") or b"0") for side in header.groups()[:2]]
        value = int(text)
        if refused.number == 1:
            self.assertTrue(name != "maximum" and value == 0)
        elif refused.number == 2:
            self.assertTrue(name != "maximum" and value > 1024 and 0 not in sides)
        else:
            self.assertTrue(name == "maximum" and value != 255 and 1 <= min(sides) and max(sides) <= 1024)

    def true_pixels(self, data, refused):
        header = HEADER.match(data)
        width, height, maximum = (int(number.lstrip(b"0")) for number in header.groups())
        held, start, *sides, need = map(int, re.findall(r"\d+", refused.reason))
        self.assertEqual((held, start, sides), (len(data) - header.end(), header.end(), [width, height]))
        self.assertEqual((need, maximum), (width * height, 255))
        self.assertNotEqual(held, need)


class Library(unittest.TestCase):
    def test_another_archive_makes_another_shared_library(self):
        library.build()
        with tempfile.TemporaryDirectory() as folder:
            archive, shared = os.path.join(folder, "smear.a"), os.path.join(folder, "made", "smear.so")
            shutil.copyfile(library.ARCHIVE, archive)
            none = os.path.join(folder, "none.h")
            with mock.patch.multiple(library, HEADER=none, ARCHIVE=archive, SHARED=shared):
                # also an older one
                for time in [10**18, 10**18 - 5]:
                    os.utime(archive, ns=(time, time))
                    library.build()
                    self.assertEqual(os.stat(shared).st_mtime_ns, time)
            self.assertEqual(os.listdir(os.path.dirname(shared)), ["smear.so"])

    def test_an_archive_older_than_the_header_is_built_anew(self):
        commands = []

        def run(*command):
            commands.append(command[0])
            if command[0] == "cc":
                open(command[3], "wb").close()

        with tempfile.TemporaryDirectory() as folder:
            header, archive, shared = (os.path.join(folder, name) for name in ["smear.h", "smear.a", "smear.so"])
            for path, time in [(header, 10**18), (archive, 10**18 - 5)]:
                open(path, "wb").close()
                os.utime(path, ns=(time, time))
            with mock.patch.multiple(library, HEADER=header, ARCHIVE=archive, SHARED=shared, run=run):
                library.build()
                os.utime(archive, ns=(10**18, 10**18))
                library.build()
                library.build()
        self.assertEqual(commands, ["tools/build", "cc", "cc"])

    def test_function_that_an_older_archive_has_not(self):
        with self.assertRaisesRegex(library.Failed, "has no smear_nothing"):
            library.function("smear_nothing")

    def test_what_is_not_installed(self):
        with self.assertRaisesRegex(library.Failed, "no-such-compiler is not installed"):
            library.run("no-such-compiler")
        with self.assertRaisesRegex(library.Failed, "false failed"):
            library.run("false")
