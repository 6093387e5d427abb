"""The commands from outside, on the documents' cases, and the sample label."""
import json
import os
import subprocess
import tempfile
import unittest

TOOLS = os.path.dirname(os.path.dirname(os.path.abspath(__file__)))
# document 01, "Length": three equal rows
RAMP = b"P2 10 3 255\n" + 3 * b"0 0 0 50 100 150 200 250 250 250\n"
# results of pictures of 5 by 1: Horizontal restorations of lengths 3 and, with the wrapping border, 5, a Horizontal
# line unsharp of length 3, a binomial, and a Vertical restoration of length 11 with estimate 10.5, whose bits are
# 4025 0000 0000 0000
RESULTS = [
    bytes.fromhex("0500 0100 00 00 00 01 0300 0100 00000100" + 16 * "00"),
    bytes.fromhex("0500 0100 00 03 00 01 0500 0100 00000100" + 16 * "00"),
    bytes.fromhex("0500 0100 00 00 00 02 0300 0000 00800100" + 16 * "00"),
    bytes.fromhex("0500 0100 00 00 00 03" + 24 * "00"),
    bytes.fromhex("0500 0100 02 00 00 01 0B00 0100 00000100 0000000000000000 0000000000002540"),
]
WHOLE_JOB = bytes.fromhex("0500 0100 00 00 00 01 0000 0100 00000100" + 16 * "00")
SHEET = """\
direction    records total length   largest       mean
Horizontal         3           11         5      3.667
DownRight          0            0         0      0.000
Vertical           1           11        11     11.000
DownLeft           0            0         0      0.000
binomial           1
"""


def numbers(count, total, largest, mean, remainder):
    return {"count": count, "total": total, "largest": largest, "mean": mean, "remainder": remainder}


class Commands(unittest.TestCase):
    def setUp(self):
        folder = tempfile.TemporaryDirectory()
        self.addCleanup(folder.cleanup)
        self.folder = folder.name

    def file(self, name, data=None):
        """The file's bytes, or the file with these bytes."""
        path = os.path.join(self.folder, name)
        if data is None:
            with open(path, "rb") as file:
                return file.read()
        with open(path, "wb") as file:
            return file.write(data)

    def run_tool(self, *words, status=0):
        """What the tool says in the folder."""
        command = [os.path.join(TOOLS, words[0]), *words[1:]]
        done = subprocess.run(command, cwd=self.folder, capture_output=True, text=True, check=False)
        self.assertEqual(done.returncode, status, done.stderr)
        return done.stderr if status else done.stdout

    def test_record(self):
        self.run_tool("record", "make", "--width", "5", "--height", "1", "--length", "3", "--iterations", "1")
        self.assertEqual(self.file("job.rec"), bytes.fromhex("05000100000000010300010000000100" + 16 * "00"))
        self.assertIn("5 by 1 pixels", self.run_tool("record", "show", "job.rec"))
        self.file("answer", b"pixels" + self.file("job.rec"))
        self.assertIn("length     3", self.run_tool("record", "show", "--last", "answer"))
        self.assertIn("refused 13", self.run_tool("record", "show", "answer", status=1))
        size = ["--width", "5", "--height", "1"]
        self.assertIn("refused 9", self.run_tool("record", "make", *size, "--iterations", "23", status=1))
        self.run_tool("record", "make", *size, "--border", "wrap")
        self.assertEqual(self.file("job.rec")[5:7], b"\3\0")
        self.assertIn("border     wrap\n", self.run_tool("record", "show", "job.rec"))
        valued = ["--border", "wrap", "--border-value", "7"]
        self.assertIn("refused 13", self.run_tool("record", "make", *size, *valued, status=1))
        self.assertIn("no-such-file", self.run_tool("record", "show", "no-such-file", status=1))

    def test_angles(self):
        # document 02, K7
        made = ["record", "make", "--width", "5", "--height", "1", "--length", "3", "--angle"]
        self.run_tool(*made, "3.1375664143845866e306")
        job = self.file("job.rec")
        self.assertEqual(job[16:24], bytes.fromhex("389D52A246DF917F"))
        self.assertIn("direction  DownRight, from the angle", self.run_tool("record", "show", "job.rec"))
        refused = "angle 3.137566414384587e+306 has no direction: its value in degrees is not finite\n"
        said = self.run_tool(*made, "3.137566414384587e306", "--out", "none.rec", status=1)
        self.assertEqual(said, f"record: refused 7: {refused}")
        self.assertFalse(os.path.exists(os.path.join(self.folder, "none.rec")))
        self.file("job.rec", job[:16] + bytes.fromhex("399D52A246DF917F") + job[24:])
        self.assertEqual(self.run_tool("record", "show", "job.rec", status=1), f"record: refused 13: {refused}")
        self.file("row.pgm", b"P2 5 1 255\n10 10 40 10 10\n")
        options = ["--length", "3", "--angle", "3.137566414384587e306"]
        said = self.run_tool("restore", "row.pgm", "out.pgm", *options, status=1)
        self.assertEqual(said, f"restore: refused 7: {refused}")
        self.assertFalse(os.path.exists(os.path.join(self.folder, "out.pgm")))

    def test_sheet(self):
        self.file("round.rec", b"".join(RESULTS))
        self.assertEqual(self.run_tool("record", "sheet", "round.rec"), SHEET)
        none = numbers(0, 0, 0, 0, 0)
        horizontal, vertical = numbers(3, 11, 5, 3, 2), numbers(1, 11, 11, 11, 0)
        directions = {"Horizontal": horizontal, "DownRight": none, "Vertical": vertical, "DownLeft": none}
        given = json.loads(self.run_tool("record", "sheet", "round.rec", "--json"))
        self.assertEqual(given, {"directions": directions, "binomials": 1})

    def test_sheet_of_an_empty_file(self):
        self.file("empty.rec", b"")
        lines = self.run_tool("record", "sheet", "empty.rec").splitlines()
        self.assertEqual([line.split()[1:] for line in lines[1:]], 4 * [["0", "0", "0", "0.000"]] + [["0"]])

    def test_what_a_sheet_refuses(self):
        unread = RESULTS[0][:5] + b"\4" + RESULTS[0][6:]
        valued = RESULTS[1][:6] + b"\7" + RESULTS[1][7:]
        # document 02, K7
        far = RESULTS[0][:16] + bytes.fromhex("399D52A246DF917F") + RESULTS[0][24:]
        for bad, why in [
            (RESULTS[0][:31], "it does not read: a record has 32 bytes, not 31\n05 00 01 00 00 00 00 01 03 00"),
            (unread, "it does not read: border 4 is not in 0..3\n05 00 01 00 00 04 00 01 03 00"),
            (valued, "it does not read: a border value stands without the constant border\n05 00 01 00 00 03 07 01"),
            (far, "it does not read: angle 3.137566414384587e+306 has no direction: its value in degrees is not"),
            (WHOLE_JOB, "a job without a length has no place on the sheet\njob: the whole job"),
        ]:
            # a later fault does not matter
            for behind in [b"", b"" if len(bad) < 32 else RESULTS[4] + unread + b"\0"]:
                self.file("round.rec", RESULTS[3] + RESULTS[4] + bad + behind)
                for options in [[], ["--json"]]:
                    said = self.run_tool("record", "sheet", "round.rec", *options, status=1)
                    self.assertIn(f"record: refused 13: record 2, counted from 0: {why}", said)
        self.assertIn("no-such-file", self.run_tool("record", "sheet", "no-such-file", status=1))

    def test_most_records_of_a_sheet(self):
        self.file("round.rec", 1_000_000 * RESULTS[4])
        self.assertIn(
            "Vertical     1000000     11000000        11     11.000\n", self.run_tool("record", "sheet", "round.rec")
        )
        self.file("round.rec", 1_000_001 * RESULTS[4])
        most = "record 1000000, counted from 0: a sheet takes at most 1,000,000 records\nresult\n"
        self.assertIn(most, self.run_tool("record", "sheet", "round.rec", status=1))

    def test_picture(self):
        self.file("row.pgm", b"P2 5 1 255\n10 10 40 10 10\n")
        self.assertEqual(self.run_tool("picture", "to-raw", "row.pgm"), "5 by 1 pixels\n")
        self.assertEqual(self.file("picture.raw"), bytes([10, 10, 40, 10, 10]))
        self.run_tool("picture", "from-raw", "picture.raw", "5", "1", "back.png")
        self.run_tool("picture", "to-raw", "back.png", "back.raw", "--crop", "1", "0", "3", "1")
        self.assertEqual(self.file("back.raw"), bytes([10, 40, 10]))
        self.assertIn("fewer than", self.run_tool("picture", "from-raw", "back.raw", "5", "1", "out.png", status=1))
        self.assertIn("neither PGM", self.run_tool("picture", "to-raw", "picture.raw", status=1))

    def test_binary_pgm(self):
        # document 02, K3
        self.file("row.raw", bytes([10, 10, 40, 10, 10]))
        self.run_tool("picture", "from-raw", "row.raw", "5", "1", "row.pgm")
        self.assertEqual(self.file("row.pgm"), bytes.fromhex("50350A350A310A3235350A0A0A280A0A"))
        self.file("row.pgm", b"P5#a\r5#b\n1 \t255 " + bytes([10, 10, 40, 10, 10]))
        self.run_tool("picture", "to-raw", "row.pgm", "back.raw", "--crop", "1", "0", "3", "1")
        self.assertEqual(self.file("back.raw"), bytes([10, 40, 10]))

    def test_binary_pgm_that_is_refused(self):
        for data, words in [
            (b"P5 5 1 255#c\n", "refused 14: byte 10 is '#', where the one white byte behind the maximum belongs"),
            (b"P5 0 1 255\n", "refused 1: width 0 (byte 3), and no side may be 0"),
            (b"P5 1 1025 255\n", "refused 2: height 1025 (bytes 5 to 8) is above 1,024"),
            (b"P5 1 1 254\n", "refused 15: maximum 254 (bytes 7 to 9), and only 255 is read"),
            (b"P5 1 1 255\n", "refused 16: 0 pixel bytes from byte 11 on, and 1 by 1 need 1"),
        ]:
            self.file("label.pgm", data)
            # also where the part that is cut out would be small enough
            for tool, *files in [["picture", "to-raw", "label.pgm"], ["restore", "label.pgm", "out.pgm"]]:
                said = self.run_tool(tool, *files, "--crop", "0", "0", "1", "1", status=1)
                self.assertEqual(said, f"{tool}: label.pgm: {words}\n")

    def test_sides_above_those_of_binary_pgm(self):
        self.file("wide.raw", bytes(range(200)) * 6)
        self.run_tool("picture", "from-raw", "wide.raw", "1200", "1", "wide.png")
        self.run_tool("picture", "to-raw", "wide.png", "part.raw", "--crop", "199", "0", "3", "1")
        self.assertEqual(self.file("part.raw"), bytes([199, 0, 1]))
        said = self.run_tool("picture", "from-raw", "wide.raw", "1200", "1", "wide.pgm", status=1)
        self.assertIn("wide.pgm: refused 2: 1200 by 1, and a side of a P5 file has 1 to 1,024 pixels", said)
        self.assertFalse(os.path.exists(os.path.join(self.folder, "wide.pgm")))

    def test_restored_row(self):
        self.file("row.pgm", b"P2 5 1 255\n10 10 40 10 10\n")
        said = self.run_tool("restore", "row.pgm", "out.pgm", "--length", "3", "--iterations", "2")
        self.assertEqual(self.file("out.pgm"), b"P5\n5\n1\n255\n" + bytes([14, 0, 80, 0, 14]))
        self.assertIn("direction  Horizontal\n  length     3", said)

    def test_restored_row_of_a_drum(self):
        # document 02, K2: a window of 3 takes the other end, one of 11 goes round twice
        self.file("row.pgm", b"P2 5 1 255\n40 10 10 10 10\n")
        for length, row in [("3", [60, 0, 10, 10, 0]), ("11", [62, 5, 5, 5, 5])]:
            options = ["--length", length, "--iterations", "1", "--border", "wrap"]
            said = self.run_tool("restore", "row.pgm", "out.pgm", *options)
            self.assertEqual(self.file("out.pgm"), b"P5\n5\n1\n255\n" + bytes(row))
            self.assertIn("border     wrap\n", said)

    def test_what_restore_refuses(self):
        self.file("ramp.pgm", RAMP)
        self.assertIn("no smear was measured", self.run_tool("restore", "ramp.pgm", "out.pgm", status=1))
        self.file("large.pgm", b"P5 64 65 255\n" + bytes(64 * 65))
        reason = "64 by 65 are 4160 pixels; the program takes at most 4096"
        self.assertIn(reason, self.run_tool("restore", "large.pgm", "out.pgm", status=1))
        self.assertFalse(os.path.exists(os.path.join(self.folder, "out.pgm")))

    def test_confidence(self):
        # document 02, K6: the sample's confidence lies between 172 and 173 256ths
        label = os.path.join(TOOLS, "..", "samples", "label.pgm")
        for options in [[], "--iterations 1 --relaxation 0.3 --border constant --border-value 7".split()]:
            said = self.run_tool("restore", label, "without.pgm", *options)
            for floor in ["0", "1", "172"]:
                same = self.run_tool("restore", label, "with.pgm", *options, "--confidence", floor)
                self.assertEqual((same, self.file("with.pgm")), (said, self.file("without.pgm")))
            for floor in ["173", "256"]:
                refused = self.run_tool("restore", label, "out.pgm", *options, "--confidence", floor, status=1)
                reason = f"the picture shows no clear direction (its confidence is below {floor}/256)"
                self.assertEqual(refused, f"restore: {reason}: nothing was restored\n")
        self.file("ramp.pgm", RAMP)
        refused = self.run_tool("restore", "ramp.pgm", "out.pgm", "--confidence", "256", status=1)
        self.assertIn("no smear was measured", refused)
        self.assertFalse(os.path.exists(os.path.join(self.folder, "out.pgm")))

    def test_confidence_out_of_place(self):
        self.file("ramp.pgm", RAMP)
        for options, reason in [
            ("257", "--confidence is 0 to 256"),
            ("-1", "--confidence is 0 to 256"),
            ("0 --length 3", "--confidence has no meaning with --length: only the whole job measures a direction"),
            ("8 --filter unsharp --length 3", "--confidence has no meaning with --filter unsharp"),
            ("8 --filter binomial", "--confidence has no meaning with --filter binomial"),
        ]:
            said = self.run_tool("restore", "ramp.pgm", "out.pgm", "--confidence", *options.split(), status=1)
            self.assertEqual(said, f"restore: {reason}\n")
        # a record has no floor
        made = ["record", "make", "--width", "5", "--height", "1"]
        self.assertIn("unrecognized arguments", self.run_tool(*made, "--confidence", "8", status=2))

    def test_halve(self):
        # document 02, K8: of 11 by 5 pixels 5 by 2 are left, 10 10 40 10 10 and 8 8 9 9 9, whose means over 3 along the
        # rows are 10 20 20 20 10 and 8 8 8 9 9
        rows = [2 * [10, 10, 10, 10, 40, 40, 10, 10, 10, 10, 99], 2 * [7, 8, 7, 8, 9, 9, 9, 9, 9, 9, 99], 11 * [99]]
        self.file("rows.pgm", b"P5 11 5 255\n" + bytes(sum(rows, [])))
        said = self.run_tool("restore", "rows.pgm", "out.pgm", "--halve", "1", "--length", "3", "--iterations", "1")
        self.assertEqual(self.file("out.pgm"), b"P5\n5\n2\n255\n" + bytes([10, 0, 60, 0, 10, 8, 8, 10, 9, 9]))
        self.assertIn("picture    5 by 2 pixels\n", said)
        # a part is cut out before it is halved: 10 40 is left, with means 20 30, and 31 36, with means 32 34
        for crop, count, row in [("2 0 4 2", "1", [0, 50]), ("0 1 11 4", "2", [30, 38])]:
            options = ["--crop", *crop.split(), "--halve", count, "--length", "3", "--iterations", "1"]
            self.run_tool("restore", "rows.pgm", "out.pgm", *options)
            self.assertEqual(self.file("out.pgm"), b"P5\n2\n1\n255\n" + bytes(row))
        options = ["--halve", "0", "--length", "3"]
        self.assertIn("picture    11 by 5 pixels\n", self.run_tool("restore", "rows.pgm", "out.pgm", *options))

    def test_halved_before_it_is_measured(self):
        # the sample with each pixel four times: halved it is the sample again, and only so is it small enough
        label = os.path.join(TOOLS, "..", "samples", "label.pgm")
        with open(label, "rb") as file:
            pixels = file.read()[len("P5 64 64 255 ") :]
        rows = [bytes(pixel for pixel in pixels[start : start + 64] for _ in range(2)) for start in range(0, 4096, 64)]
        large = b"".join(2 * row for row in rows)
        self.file("large.pgm", b"P5 128 128 255\n" + large)
        reason = "128 by 128 are 16384 pixels; the program takes at most 4096"
        reason += ": cut a part out with --crop X Y W H, or halve it with --halve N"
        self.assertEqual(self.run_tool("restore", "large.pgm", "out.pgm", status=1), f"restore: {reason}\n")
        for options in [[], ["--confidence", "172"]]:
            said = self.run_tool("restore", label, "label.pgm", *options)
            self.assertEqual(self.run_tool("restore", "large.pgm", "half.pgm", "--halve", "1", *options), said)
            self.assertEqual(self.file("half.pgm"), self.file("label.pgm"))

    def test_what_cannot_be_halved(self):
        self.file("three.pgm", b"P5 3 3 255\n" + bytes(9))
        self.file("wide.pgm", b"P2 1025 2 255\n" + 2050 * b"0 ")
        below = "none starts from a side below 2"
        for name, count, reason in [
            ("three.pgm", "2", f"refused 18: 3 by 3 pixels can be halved 1 time, not 2: {below}"),
            ("three.pgm", "11", "refused 18: 11 halvings, and a picture is halved at most 10 times"),
            ("three.pgm", "-1", "a picture is halved 0 to 10 times, not -1"),
            ("wide.pgm", "1", "refused 2: 1025 by 2 pixels, and a picture that is halved has at most 1,024 a side"),
        ]:
            said = self.run_tool("restore", name, "out.pgm", "--halve", count, status=1)
            self.assertEqual(said, f"restore: {reason}\n")
        self.assertFalse(os.path.exists(os.path.join(self.folder, "out.pgm")))

    def test_sample_label(self):
        said = self.run_tool(os.path.join("..", "samples", "make"), "--check")
        # as the README says
        self.assertIn("31 before, 0 after; the restored label says 'CASSETTE 04711'", said)
