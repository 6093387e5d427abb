"""Pictures: PNG files that libpng 1.6 wrote, with known pixels, and P2 files written out by hand."""
import unittest

import pictures

# 5 by 3: 0 10 20 30 40, 50 .. 90, 255 254 128 7 0, by each of the five row filters
RAMP = bytes([0, 10, 20, 30, 40, 50, 60, 70, 80, 90, 255, 254, 128, 7, 0])
RAMPS = {
    "none": (
        "0000000d49484452000000050000000308000000007e5d9a24"
        "0000001a4944415408996360e01291d36030b2710b8862f8ffaf819d01001bf50447f8167f9a0000000049454e44ae426082"
    ),
    "sub": (
        "0000000d49484452000000050000000308000000007e5d9a24"
        "0000001a4944415408996364e0e2e2e26234e2e2e2e262fcffbfa9fd270012780486447d972c0000000049454e44ae426082"
    ),
    "up": (
        "0000000d49484452000000050000000308000000007e5d9a24"
        "0000001a4944415408996362e01291d3603232323232623a7bc86afb32001867048b3ae07d090000000049454e44ae426082"
    ),
    "avg": (
        "0000000d49484452000000050000000308000000007e5d9a24"
        "0000001a4944415408996366e0e21791643692939393637e96786ffe05001528048e2ac02e5d0000000049454e44ae426082"
    ),
    "paeth": (
        "0000000d49484452000000050000000308000000007e5d9a24"
        "0000001a4944415408996361e0e2e2e26231e2e2e2e26239fbbfa9fd270011ea045d0fcad8830000000049454e44ae426082"
    ),
}
# red, green, blue, white, black, 100
RGB = (
    "0000000d49484452000000030000000208020000001216f14d"
    "0000001c49444154089963f9cfc0c0f89f8181f13f0bc3ffff0c8c8c2929a9003ece0635935384950000000049454e44ae426082"
)
# red, red without weight, half black, 200
RGBA = (
    "0000000d494844520000000200000002080600000072b60d24"
    "0000001a49444154089963fccfc0f09f81818191918181a1e1c48913f500291f0559adc5070f0000000049454e44ae426082"
)
# black, black without weight, 100, half black
GREY_ALPHA = (
    "0000000d4948445200000002000000020804000000d8bfc5af000000124944415408996362f8cfc0c094c2c0d000000a3001e80e75a3d6"
    "0000000049454e44ae426082"
)
# 2 bits a pixel: 0 1 2 3 0, 3 2 1 0 1 of red, green, blue, 9; then with green transparent
PALETTE = (
    "0000000d4948445200000005000000020203000000ed04fece0000000c504c5445ff000000ff000000ff0909095c717e86"
    "0000000e4944415408996390666078e2000002950140fc54d1b70000000049454e44ae426082"
)
PALETTE_ALPHA = (
    "0000000d4948445200000005000000020203000000ed04fece0000000c504c5445ff000000ff000000ff0909095c717e86"
    "0000000274524e53ff00e5b7304a0000000e4944415408996390666078e2000002950140fc54d1b70000000049454e44ae426082"
)
# 1 bit: 1 0 1, 1 1 0; 4 bits: 0 15 8, 1 2 3; 16 bits; interlaced
ONE_BIT = (
    "0000000d4948445200000003000000020100000000b50f5bb70000000c4944415408996358c070000002a40161dca8c999"
    "0000000049454e44ae426082"
)
FOUR_BITS = (
    "0000000d49484452000000030000000204000000007defd4c70000000e49444154089963e06f601032000002a500d275df367c"
    "0000000049454e44ae426082"
)
SIXTEEN_BITS = (
    "0000000d494844520000000200000001100000000081d9fc150000000d494441540899636064626601000019000bc50d4d30"
    "0000000049454e44ae426082"
)
INTERLACED = (
    "0000000d4948445200000005000000030800000001095aaab2"
    "0000001e494441540899636060d0601061f8dfc0c0c025c7f08f9dc1c8c62d200a0027c4044754131ac70000000049454e44ae426082"
)


def png(body):
    """The file whose bytes behind the mark that all PNG files share are given."""
    return pictures.PNG_MARK + bytes.fromhex(body)


class Png(unittest.TestCase):
    def pixels(self, body):
        return list(pictures.read_png(png(body)).pixels)

    def test_row_filters(self):
        for name, body in RAMPS.items():
            self.assertEqual(pictures.read_png(png(body)), pictures.Picture(5, 3, RAMP), name)

    def test_colour_is_its_luminance(self):
        # 0.299, 0.587 and 0.114 of 255
        self.assertEqual(self.pixels(RGB), [76, 150, 29, 255, 0, 100])
        self.assertEqual(self.pixels(PALETTE), [76, 150, 29, 9, 76, 9, 29, 150, 76, 150])

    def test_alpha_stands_over_white(self):
        self.assertEqual(self.pixels(RGBA), [76, 255, 127, 200])
        self.assertEqual(self.pixels(GREY_ALPHA), [0, 255, 100, 127])
        self.assertEqual(self.pixels(PALETTE_ALPHA), [76, 255, 29, 9, 76, 9, 29, 255, 76, 255])

    def test_few_bits(self):
        self.assertEqual(self.pixels(ONE_BIT), [255, 0, 255, 255, 255, 0])
        self.assertEqual(self.pixels(FOUR_BITS), [0, 255, 136, 17, 34, 51])

    def test_unreadable(self):
        whole = png(RGB)
        damaged = whole[:20] + bytes([whole[20] ^ 1]) + whole[21:]
        for words, data in [
            ("interlaced", png(INTERLACED)), ("16 bits", png(SIXTEEN_BITS)),
            ("damaged", damaged), ("ends early", whole[:-1]),
        ]:
            with self.assertRaisesRegex(pictures.Unreadable, words):
                pictures.read_png(data)

    def test_every_prefix_is_refused(self):
        for end in range(8, len(png(RGB))):
            with self.assertRaises(pictures.Unreadable):
                pictures.read_png(png(RGB)[:end])

    def test_written_and_read(self):
        picture = pictures.Picture(5, 3, RAMP)
        self.assertEqual(pictures.read_png(pictures.write_png(picture)), picture)


class PlainPgm(unittest.TestCase):
    def test_text(self):
        picture = pictures.Picture(3, 2, bytes([0, 1, 2, 253, 254, 255]))
        self.assertEqual(pictures.read_plain_pgm(b"P2\n3 2 # size\n255\n0 1 2\n253 254 # end\n255\n"), picture)

    def test_other_greatest_values(self):
        self.assertEqual(pictures.read_plain_pgm(b"P2 3 1 15 0 8 15"), pictures.Picture(3, 1, bytes([0, 136, 255])))

    def test_unreadable(self):
        for data in [
            b"P2", b"P2 5 1", b"P2 0 1 255\n", b"P2 5 1 255\n1 2 3 4", b"P2 1 1 65535\n12",
            b"P2 1 1 255\n256", b"P2 1 1 255\nx", b"P2 1 1 0\n0",
        ]:
            with self.assertRaises(pictures.Unreadable):
                pictures.read_plain_pgm(data)


class Parts(unittest.TestCase):
    def test_crop(self):
        middle = pictures.Picture(2, 2, bytes([60, 70, 254, 128]))
        self.assertEqual(pictures.Picture(5, 3, RAMP).crop(1, 1, 2, 2), middle)
        for part in [(4, 0, 2, 1), (0, 2, 1, 2), (-1, 0, 2, 2), (0, 0, 0, 1)]:
            with self.assertRaises(pictures.Unreadable):
                pictures.Picture(5, 3, RAMP).crop(*part)
