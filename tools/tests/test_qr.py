"""The sample's QR symbols against published codewords and formats, and another encoder's symbol."""
import unittest

import qr

# CASSETTE 04711 in version 1, level M, as qrencode 4.1.1 draws it
CASSETTE = """
#######..#....#######
#.....#....#..#.....#
#.###.#.###.#.#.###.#
#.###.#.#.#.#.#.###.#
#.###.#.##.##.#.###.#
#.....#.##..#.#.....#
#######.#.#.#.#######
........#..##........
#.#####..#..#.#####..
#.#....#.#..##......#
##....#.#..#.###...#.
.###.#....#..#.#..#.#
...##.##..##..#..##..
........#.###.....#.#
#######.....#.....#..
#.....#.#.###.###..##
#.###.#.##..###.#..#.
#.###.#.#.#.#.#.###..
#.###.#.#.##...#..#..
#.....#...#......#..#
#######.#.##...##....
"""


class Qr(unittest.TestCase):
    def test_codewords_of_the_standards_example(self):
        # ISO/IEC 18004, annex I: 01234567 in version 1, level M
        data = bytes.fromhex("10200C566180EC11EC11EC11EC11EC11")
        self.assertEqual(bytes(qr.check_codewords(data)).hex(), "a524d4c1ed36c7872c55")

    def test_codewords_of_alphanumeric_text(self):
        # HELLO WORLD in version 1, level M, as the tutorials give it
        data = [32, 91, 11, 120, 209, 114, 220, 77, 67, 64, 236, 17, 236, 17, 236, 17]
        self.assertEqual(qr.data_codewords("HELLO WORLD"), data)
        self.assertEqual(qr.check_codewords(data), [196, 35, 39, 119, 235, 215, 231, 226, 93, 23])

    def test_formats(self):
        # ISO/IEC 18004, annex C: level M with masks 0 to 7
        formats = [
            "101010000010010", "101000100100101", "101111001111100", "101101101001011",
            "100010111111001", "100000011001110", "100111110010111", "100101010100000",
        ]
        self.assertEqual([f"{qr.format_bits(mask):015b}" for mask in range(8)], formats)

    def test_symbol(self):
        self.assertEqual(qr.encode("CASSETTE 04711"), [[module == "#" for module in row] for row in CASSETTE.split()])

    def test_read_back(self):
        for text in ["CASSETTE 04711", "A", "AB", "0123456789ABCDEFGHIJ"]:
            symbol = qr.encode(text)
            self.assertEqual(qr.decode(symbol), text)
            symbol[12][12] = not symbol[12][12]
            with self.assertRaises(ValueError):
                qr.decode(symbol)
