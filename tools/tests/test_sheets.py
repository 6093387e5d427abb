"""The round sheet: its mean to three decimals, what of the program's words is believed, and the words of a refusal."""
import os
import unittest

import records
import sheets
from sheets import Smears

# document 01's row, 5 by 1, length 3, whose result is the same; and a whole job
ROW = bytes.fromhex("0500 0100 00 00 00 01 0300 0100 00000100" + 16 * "00")
WHOLE_JOB = bytes.fromhex("0500 0100 00 00 00 01 0000 0300 00000100" + 16 * "00")
# Vertical, two records of lengths 3 and 5, and a binomial
GIVEN = b"0 0 0 0 0\n0 0 0 0 0\n2 8 5 4 0\n0 0 0 0 0\n1\n"


class Means(unittest.TestCase):
    def mean(self, count, total, text):
        self.assertEqual(sheets.mean(Smears(count, total, 0, total // count, total % count)), text)

    def test_thirds(self):
        self.mean(3, 11, "3.667")
        self.mean(3, 10, "3.333")
        self.mean(3, 9, "3.000")

    def test_half_a_thousandth_goes_up(self):
        # 1/16 is 0.0625, 3/16 is 0.1875, 1/2000 is 0.0005
        self.mean(16, 3 * 16 + 1, "3.063")
        self.mean(16, 3 * 16 + 3, "3.188")
        self.mean(2000, 3 * 2000 + 1, "3.001")
        # just below and above it
        self.mean(2001, 3 * 2001 + 1, "3.000")
        self.mean(1999, 3 * 1999 + 1, "3.001")

    def test_carry_into_the_whole_part(self):
        self.mean(2000, 4 * 2000 - 1, "4.000")
        self.mean(1_000_000, 2049 * 1_000_000 - 1, "2049.000")

    def test_empty_direction(self):
        self.assertEqual(sheets.mean(Smears(0, 0, 0, 0, 0)), "0.000")


class Answers(unittest.TestCase):
    def test_sheet(self):
        sheet = sheets.given(GIVEN, 3 * 32)
        self.assertEqual((sheet.directions[2], sheet.binomials), (Smears(2, 8, 5, 4, 0), 1))
        self.assertEqual([smears.count for smears in sheet.directions], [0, 0, 2, 0])

    def test_file_that_was_not_read_to_its_end(self):
        for size in [2 * 32, 4 * 32, 3 * 32 + 1, 0]:
            with self.assertRaisesRegex(sheets.Failed, f"3 records, and the file {size} bytes"):
                sheets.given(GIVEN, size)

    def test_pipe(self):
        pipe = os.pipe()
        for end in pipe:
            self.addCleanup(os.close, end)
        with self.assertRaisesRegex(sheets.Failed, "is a pipe"):
            sheets.of_file(f"/dev/fd/{pipe[0]}")

    def test_other_words(self):
        for answer in [b"", b"0\n", GIVEN[:-1], GIVEN + b"\n", GIVEN.replace(b"8", b"-8"), b"refused 13\n"]:
            with self.assertRaisesRegex(sheets.Failed, "the program says"):
                sheets.given(answer, 3 * 32)


class Refusals(unittest.TestCase):
    def refusal(self, index, part, *texts):
        refused = sheets.refusal(index, part)
        self.assertEqual(refused.number, 13)
        for text in [f"refused 13: record {index}, counted from 0: ", *texts]:
            self.assertIn(text, str(refused))

    def test_part_that_does_not_read(self):
        even = ROW.replace(b"\3\0\1", b"\4\0\1")
        self.refusal(5, even, "it does not read: blur length 4 is even\n05 00 01 00 00 00 00 01 04 00")
        self.refusal(0, ROW[:3], "it does not read: a record has 32 bytes, not 3\n05 00 01")
        # 1e307, whose bits are 7FAC 7B1F 3CAC 7433
        far = ROW[:16] + bytes.fromhex("3374AC3C1F7BAC7F") + ROW[24:]
        self.refusal(2, far, "it does not read: angle 1e+307 has no direction: its value in degrees is not finite\n05")

    def test_whole_job(self):
        self.refusal(7, WHOLE_JOB, "a job without a length has no place on the sheet\njob: the whole job")

    def test_most_records(self):
        most = "a sheet takes at most 1,000,000 records"
        self.refusal(1_000_000, ROW, f"{most}\n{records.words(records.read(ROW))}")
        self.refusal(1_000_000, ROW[:1], f"{most}; it does not read: a record has 32 bytes, not 1\n05")
        self.assertNotIn(most, str(sheets.refusal(999_999, WHOLE_JOB)))

    def test_good_record(self):
        with self.assertRaisesRegex(sheets.Failed, "the program refuses record 999999"):
            sheets.refusal(999_999, ROW)
