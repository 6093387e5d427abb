"""Records: bytes written out by hand from the documents, limits at both sides, and each way to break the layout."""
import argparse
import math
import sys
import unittest

import records

# document 01's row: 5 by 1, length 3, one iteration, relaxation 1
ROW = bytes.fromhex("0500 0100 00 00 00 01 0300 0100 00000100" + 16 * "00")
WHOLE_JOB = bytes.fromhex("4000 4000 00 00 00 01 0000 0300 00000100" + 16 * "00")
# Vertical, length 7, estimate 6.5, whose bits are 401A 0000 0000 0000
RESULT = bytes.fromhex("4000 4000 02 00 00 01 0700 0300 00000100 0000000000000000 0000000000001A40")
# gain 1.5 is q 98,304; angle 1.5 is 3FF8 0000 0000 0000; constant border 7
UNSHARP = bytes.fromhex("0500 0100 00 02 07 02 0300 0000 00800100 000000000000F83F 0000000000000000")
BINOMIAL = bytes.fromhex("0500 0100 00 00 00 03" + 24 * "00")
# document 02, K7: the last double that has a direction, 7F91 DF46 A252 9D38
LAST_ANGLE = 3.1375664143845866e306
# document 02, K2: the row with the wrapping border, which is 3 and has no value
WRAP = bytes.fromhex("0500 0100 00 03 00 01 0300 0100 00000100" + 16 * "00")


def job(width, height, *arguments):
    parser = argparse.ArgumentParser()
    records.add_options(parser)
    return records.write(records.from_options(parser.parse_args(arguments), width, height))


class Records(unittest.TestCase):
    def refuses(self, number, call, *arguments):
        with self.assertRaises(records.Refused) as caught:
            call(*arguments)
        self.assertEqual(caught.exception.number, number, caught.exception)

    def breaks(self, data, place, bytes_there):
        """The record with other bytes at a place gives 13."""
        there = bytes.fromhex(bytes_there)
        self.refuses(13, records.read, data[:place] + there + data[place + len(there) :])

    def test_jobs_from_options(self):
        self.assertEqual(job(5, 1, "--length", "3", "--iterations", "1"), ROW)
        self.assertEqual(job(64, 64), WHOLE_JOB)
        unsharp = "--filter unsharp --length 3 --angle 1.5 --border constant --border-value 7"
        self.assertEqual(job(5, 1, *unsharp.split()), UNSHARP)
        self.assertEqual(job(5, 1, "--filter", "binomial"), BINOMIAL)
        self.assertEqual(job(5, 1, "--length", "3", "--iterations", "1", "--border", "wrap"), WRAP)

    def test_bytes_and_fields_determine_each_other(self):
        for data in [ROW, WHOLE_JOB, RESULT, UNSHARP, BINOMIAL, WRAP]:
            self.assertEqual(records.write(records.read(data)), data)

    def test_fields_of_a_result(self):
        record = records.read(RESULT)
        self.assertEqual((record.direction, record.length, record.estimate), (2, 7, 6.5))
        self.assertFalse(record.is_job())

    def test_q(self):
        self.assertEqual([records.q_of(factor) for factor in [0.1, 2.0**-17, -0.0, 1.0]], [6554, 1, 0, 65536])

    def test_directions_of_angles(self):
        self.assertEqual([records.from_angle(angle) for angle in [0.39, 0.40, -1.0, 3.0]], [0, 1, 3, 0])
        # document 02, K7
        self.assertEqual([records.from_angle(angle) for angle in [1e306, LAST_ANGLE, -LAST_ANGLE]], [2, 1, 3])
        for angle in [math.nextafter(LAST_ANGLE, math.inf), 1e307, sys.float_info.max, math.inf, math.nan]:
            self.assertEqual([records.from_angle(angle), records.from_angle(-angle)], [None, None])

    def test_limits(self):
        for accepted in [
            (1024, 1), (1, 1024), (5, 1, "--length", "11"), (5, 1, "--iterations", "22"), (5, 1, "--relaxation", "0"),
            (5, 1, "--filter", "unsharp", "--length", "3", "--gain", "8"),
            (5, 1, "--length", "3", "--angle", "3.1375664143845866e306"),
        ]:
            self.assertEqual(len(job(*accepted)), 32)
        for number, refused in [
            (1, (0, 1)), (1, (1, 0)), (2, (1025, 1)), (2, (1, 1025)),
            (7, (5, 1, "--length", "13")), (7, (5, 1, "--length", "4")), (7, (5, 1, "--length", "1")),
            (7, (5, 1, "--length", "3", "--angle", "nan")), (7, (5, 1, "--length", "3", "--angle", "inf")),
            (7, (5, 1, "--length", "3", "--angle", "3.137566414384587e306")),
            (7, (5, 1, "--length", "3", "--angle=-1e307")),
            (7, (5, 1, "--filter", "unsharp", "--length", "3", "--angle", "1e308")),
            (8, (5, 1, "--iterations", "0")), (9, (5, 1, "--iterations", "23")),
            (8, (5, 1, "--relaxation", "1.0000001")),
            (8, (5, 1, "--relaxation", "nan")), (8, (5, 1, "--relaxation", "-0.1")),
            (8, (5, 1, "--filter", "unsharp", "--length", "3", "--gain", "8.1")),
            # the first match wins
            (1, (0, 2000)), (1, (0, 1, "--length", "4")), (7, (5, 1, "--length", "4", "--iterations", "0")),
            (7, (5, 1, "--length", "3", "--angle", "1e307", "--iterations", "0")),
            (8, (5, 1, "--iterations", "23", "--relaxation", "2")),
        ]:
            self.refuses(number, job, *refused)

    def test_options_that_do_not_fit_together(self):
        for arguments in [
            ["--gain", "1"], ["--angle", "1"], ["--length", "0"], ["--border-value", "256", "--border", "constant"],
            ["--filter", "unsharp"], ["--filter", "binomial", "--iterations", "1"],
        ]:
            with self.assertRaises(ValueError):
                job(5, 1, *arguments)

    def test_a_value_stands_with_the_constant_border_alone(self):
        for border in ["replicate", "reflect", "wrap"]:
            self.refuses(13, job, 5, 1, "--border", border, "--border-value", "7")
            self.assertEqual(job(5, 1, "--border", border, "--border-value", "0"), job(5, 1, "--border", border))
        self.assertEqual(job(5, 1, "--border", "constant", "--border-value", "7")[5:7], b"\2\7")

    def test_lengths_of_a_record(self):
        for data in [b"", ROW[:31], ROW + b"\0"]:
            self.refuses(13, records.read, data)

    def test_broken_sizes_and_single_bytes(self):
        for place, there in [
            (0, "0000"), (0, "0104"), (2, "0000"), (2, "0104"), (4, "04"), (5, "04"), (6, "01"), (7, "00"), (7, "04"),
        ]:
            self.breaks(ROW, place, there)

    def test_broken_borders(self):
        for border_and_value in ["0007", "0107", "0301", "0307", "03FF", "0400", "0407", "FF00"]:
            self.breaks(ROW, 5, border_and_value)

    def test_broken_numbers(self):
        for place, there in [(8, "0100"), (8, "0200"), (8, "0D00"), (10, "0000"), (10, "1700"), (12, "01000100")]:
            self.breaks(ROW, place, there)
        for place, there in [(8, "0000"), (10, "0100"), (12, "01000800")]:
            self.breaks(UNSHARP, place, there)

    def test_broken_doubles(self):
        infinite, no_number = "000000000000F07F", "000000000000F87F"
        minus_zero, minus_one = "0000000000000080", "000000000000F0BF"
        for place, there in [
            (16, infinite), (16, no_number), (24, infinite), (24, no_number), (24, minus_zero), (24, minus_one),
        ]:
            self.breaks(ROW, place, there)

    def test_broken_angles(self):
        # the double behind the last that has a direction, and the largest
        for data in [ROW, RESULT, UNSHARP]:
            for positive in ["399D52A246DF917F", "FFFFFFFFFFFFEF7F"]:
                self.breaks(data, 16, positive)
                self.breaks(data, 16, positive[:-2] + "FF")
        last = bytes.fromhex("389D52A246DF917F")
        record = records.read(ROW[:16] + last + ROW[24:])
        self.assertEqual((record.angle, records.write(record)[16:24]), (LAST_ANGLE, last))
        self.assertIn(
            "job\n  picture    5 by 1 pixels\n  filter     restoration, 1 iteration, relaxation 1 (q 65536)\n"
            "  border     replicate\n  direction  DownRight, from the angle 3.1375664143845866e+306\n",
            records.words(record),
        )

    def test_broken_whole_jobs(self):
        for place, there in [(4, "01"), (16, "01"), (16, "0000000000000080"), (24, "01")]:
            self.breaks(WHOLE_JOB, place, there)

    def test_broken_binomials(self):
        for place in [4, 5, 6, *range(8, 32)]:
            self.breaks(BINOMIAL, place, "01")
        self.breaks(BINOMIAL, 24, "0000000000000080")

    def test_words(self):
        result = "direction  Vertical\n  length     7\n  estimate   6.5 pixels"
        self.assertIn(result, records.words(records.read(RESULT)))
        self.assertIn("whole job", records.words(records.read(WHOLE_JOB)))
        self.assertIn("line unsharp, gain 1.5 (q 98304)", records.words(records.read(UNSHARP)))
        self.assertIn("direction  Vertical, from the angle 1.5", records.words(records.read(UNSHARP)))
        self.assertIn("border     constant 7\n", records.words(records.read(UNSHARP)))
        self.assertIn("border     wrap\n", records.words(records.read(WRAP)))
