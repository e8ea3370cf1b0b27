"""Tests the Python module: the worked example, refusals, and that it gives what the command writes.

    MULTISIZE_LIBRARY=.../libmultisize.so.0 python3 -m unittest discover python

The program is hosts/target/release/multisize, or what MULTISIZE_PROGRAM names; where it isn't there, the comparison with it
is skipped.
"""

import itertools
import os
import pathlib
import pickle
import random
import subprocess
import tempfile
import unittest

import multisize
from multisize import HORIZONTAL, Picture, Refused

ROOT = pathlib.Path(__file__).resolve().parent.parent
PROGRAM = pathlib.Path(os.environ.get("MULTISIZE_PROGRAM", ROOT / "hosts/target/release/multisize"))

WORKED = Picture(3, 2, "grey", bytes([10, 10, 40, 10, 50, 40]))
HEAD, ROWS = b"(multi\n(size 3 2 grey)\n(range 2 1)\n", b"(row 10 10 40)\n(row 10 50 40)\n"
FILE = HEAD + b"(energy edge)\n" + ROWS + b"(map 1 0 2)\n(map 1 0 2)\n)\n"
FLAT_FILE = HEAD + b"(energy flat)\n" + ROWS + b"(map 2 0 1)\n(map 0 2 1)\n)\n"
FORWARD_FILE = HEAD + b"(energy forward)\n" + ROWS + b"(map 1 2 0)\n(map 2 1 0)\n)\n"


def with_last_map(numbers):
    """The file with another last row of its map, whose rows are both 1 0 2."""
    return FILE.replace(b"(map 1 0 2)\n)", b"(map " + numbers + b")\n)")


def noise(width, height, kind, seed=1):
    numbers = random.Random(seed)
    channels = 3 if kind == "rgb" else 1
    return Picture(width, height, kind, bytes(numbers.randrange(256) for _ in range(width * height * channels)))


class Worked(unittest.TestCase):
    def test_energies(self):
        self.assertEqual(multisize.energies(WORKED, 0), (0, 70, 30))
        self.assertEqual(multisize.energies(WORKED, 1), (40, 50, 10))
        self.assertEqual(multisize.energies(WORKED, 0, energy="flat"), (0, 70, 0))
        self.assertEqual(multisize.energies(WORKED, 1, energy="flat"), (40, 10, 0))
        self.assertEqual(multisize.energies(WORKED, 0, energy="forward"), (0, 30, 30))
        self.assertEqual(multisize.energies(WORKED, 1, energy="forward"), (40, 30, 10))

    def test_step_costs(self):
        costs = multisize.step_costs(WORKED, 1, energy="forward")
        self.assertEqual((costs.left, costs.up, costs.right), ((40, 30, 20), (40, 30, 10), (80, 60, 10)))
        self.assertEqual(multisize.step_costs(WORKED, 0, energy=multisize.FORWARD), ((0, 30, 30),) * 3)
        self.assertEqual(multisize.step_costs(WORKED, 1), ((40, 50, 10),) * 3)
        self.assertEqual(multisize.step_costs(WORKED, 1, energy="flat"), ((40, 10, 0),) * 3)
        column = Picture(1, 2, "grey", b"\12\36")
        self.assertEqual(multisize.step_costs(column, 1, energy="forward"), ((20,), (0,), (20,)))

    def test_seams_found_and_cut(self):
        found = multisize.find(WORKED)
        first = multisize.cut(WORKED)
        self.assertEqual((found, first.seam), (((0, 0), 40), ((0, 0), 40)))
        self.assertEqual((first.picture, first.marks), ((2, 2, "grey", bytes([10, 40, 50, 40])), None))
        second = multisize.cut(first.picture)
        self.assertEqual(second.seam, ((1, 1), 40))
        self.assertEqual(second.picture.samples, bytes([10, 50]))
        self.assertEqual(WORKED.samples, bytes([10, 10, 40, 10, 50, 40]))

    def test_seams_found_and_cut_by_flat(self):
        first = multisize.cut(WORKED, energy="flat")
        self.assertEqual(multisize.find(WORKED, energy="flat"), first.seam)
        self.assertEqual((first.seam, first.picture.samples), (((2, 2), 0), bytes([10, 10, 10, 50])))
        second = multisize.cut(first.picture, energy="flat")
        self.assertEqual((second.seam, second.picture.samples), (((0, 1), 0), bytes([10, 10])))

    def test_seams_found_and_cut_by_forward(self):
        first = multisize.cut(WORKED, energy="forward")
        self.assertEqual(multisize.find(WORKED, energy="forward"), first.seam)
        self.assertEqual((first.seam, first.picture.samples), (((0, 1), 30), bytes([10, 40, 10, 40])))
        second = multisize.cut(first.picture, energy="forward")
        self.assertEqual((second.seam, second.picture.samples), (((0, 0), 60), bytes([40, 40])))

    def test_a_horizontal_seam(self):
        for energy, seam, left in [
            ("edge", ((0, 1, 1), 60), [10, 10, 40]),
            ("flat", ((0, 1, 0), 10), [10, 10, 40]),
            ("forward", ((0, 0, 0), 40), [10, 50, 40]),
        ]:
            cut = multisize.cut(WORKED, HORIZONTAL, energy=energy)
            self.assertEqual(cut.seam, seam)
            self.assertEqual(cut.picture, (3, 1, "grey", bytes(left)))

    def test_seams_by_marks(self):
        marks = bytes([0, 2, 1, 0, 0, 0])
        cut = multisize.cut(WORKED, marks=marks)
        self.assertEqual(multisize.find(WORKED, marks=marks), cut.seam)
        self.assertEqual(cut.seam, ((1, 2), 80))
        self.assertEqual(cut.picture.samples, bytes([10, 40, 10, 50]))
        self.assertEqual(cut.marks, bytes([0, 1, 0, 0]))
        self.assertEqual(marks, bytes([0, 2, 1, 0, 0, 0]))
        self.assertEqual(multisize.find(WORKED, marks=marks, energy="flat"), ((1, 2), 70))
        self.assertEqual(multisize.find(WORKED, marks=marks, energy="forward"), ((1, 2), 50))
        marks = bytes([1, 0, 0, 0, 0, 2])
        self.assertEqual(multisize.find(WORKED, marks=marks, energy="forward"), ((2, 2), 40))

    def test_the_energy_may_be_named(self):
        marks = bytes([2, 0, 0, 0, 0, 0])
        for function, *words in [
            (multisize.energies, 0),
            (multisize.step_costs, 1),
            (multisize.find,),
            (multisize.find, HORIZONTAL, marks),
            (multisize.cut,),
            (multisize.cut, HORIZONTAL, marks),
            (multisize.remove, marks),
            (multisize.retarget, 1, 1),
            (multisize.build,),
        ]:
            self.assertEqual(function(WORKED, *words, energy="edge"), function(WORKED, *words))
            self.assertNotEqual(function(WORKED, *words, energy="flat"), function(WORKED, *words))
            self.assertNotEqual(function(WORKED, *words, energy="forward"), function(WORKED, *words))
        for function in (multisize.energies, multisize.step_costs):
            self.assertRaises(TypeError, function, WORKED, 0, "edge")

    def test_removals_end_in_four_ways(self):
        column = Picture(1, 2, "grey", b"\7\7")
        cases = [
            (WORKED, [0, 2, 1, 0, 0, 0], 65535, ("done", 1, 2)),
            (WORKED, [0, 2, 1, 0, 0, 0], 0, ("spent", 0, 3)),
            (column, [0, 2], 0, ("narrow", 0, 1)),
            (WORKED, [2, 0, 2, 1, 1, 1], 7, ("blocked", 0, 3)),
        ]
        for picture, marks, budget, wanted in cases:
            removed = multisize.remove(picture, bytes(marks), budget)
            self.assertEqual((removed.ending, removed.count, removed.picture.width), wanted)
            self.assertEqual(len(removed.marks), removed.picture.width * removed.picture.height)

    def test_a_retarget(self):
        self.assertEqual(multisize.retarget(WORKED, columns=2), ((1, 2, "grey", bytes([10, 50])), 80))
        self.assertEqual(multisize.retarget(WORKED, 1, 1), ((2, 1, "grey", bytes([10, 40])), 60))
        self.assertEqual(multisize.retarget(WORKED).picture, WORKED)
        self.assertEqual(multisize.retarget(WORKED, 1, 1, energy="flat"), ((2, 1, "grey", bytes([10, 10])), 0))
        self.assertEqual(multisize.retarget(WORKED, 1, 1, energy="forward"), ((2, 1, "grey", bytes([10, 40])), 30))

    def test_the_file_built_checked_and_read(self):
        self.assertEqual(multisize.build(WORKED), FILE)
        head = multisize.check(FILE)
        self.assertEqual(head, (3, 2, "grey", 2, 1, "edge"))
        self.assertEqual(head.energy, multisize.EDGE)
        self.assertEqual(list(head.widths), [1, 2, 3, 4])
        contents = multisize.read(FILE)
        self.assertEqual((contents.picture, list(contents.map), contents.head), (WORKED, [1, 0, 2, 1, 0, 2], head))

    def test_the_file_of_flat(self):
        self.assertEqual(multisize.build(WORKED, energy="flat"), FLAT_FILE)
        head = multisize.check(FLAT_FILE)
        self.assertEqual((head, head.energy), ((3, 2, "grey", 2, 1, "flat"), multisize.FLAT))
        contents = multisize.read(FLAT_FILE)
        self.assertEqual((list(contents.map), contents.head), ([2, 0, 1, 0, 2, 1], head))
        shown = [list(multisize.show(FLAT_FILE, width).samples) for width in (1, 2, 4)]
        self.assertEqual(shown, [[10, 10], [10, 10, 10, 50], [10, 10, 25, 40, 10, 50, 45, 40]])

    def test_the_file_of_forward(self):
        self.assertEqual(multisize.build(WORKED, energy="forward"), FORWARD_FILE)
        head = multisize.check(FORWARD_FILE)
        self.assertEqual((head, head.energy), ((3, 2, "grey", 2, 1, "forward"), multisize.FORWARD))
        contents = multisize.read(FORWARD_FILE)
        self.assertEqual((list(contents.map), contents.head), ([1, 2, 0, 2, 1, 0], head))
        shown = [list(multisize.show(FORWARD_FILE, width).samples) for width in (1, 2, 4)]
        self.assertEqual(shown, [[40, 40], [10, 40, 10, 40], [10, 10, 10, 40, 10, 50, 45, 40]])

    def test_files_of_several_energies_differ(self):
        plain = Picture(4, 3, "grey", bytes(12))
        edge, flat, forward = (multisize.build(plain, energy=energy) for energy in ("edge", "flat", "forward"))
        self.assertNotEqual(edge, flat)
        self.assertEqual(edge.replace(b"edge", b"flat"), flat)
        self.assertEqual(edge.replace(b"edge", b"forward"), forward)

    def test_the_file_shown(self):
        shown = {width: list(multisize.show(FILE, width).samples) for width in multisize.check(FILE).widths}
        self.assertEqual(shown[1], [10, 50])
        self.assertEqual(shown[2], [10, 40, 50, 40])
        self.assertEqual(shown[3], [10, 10, 40, 10, 50, 40])
        self.assertEqual(shown[4], [10, 10, 10, 40, 10, 30, 50, 40])

    def test_what_was_read_is_shown_without_another_check(self):
        for picture in (WORKED, noise(7, 4, "rgb"), noise(1, 3, "rgb"), noise(2, 5, "grey"), noise(40, 3, "grey")):
            file = multisize.build(picture)
            contents = multisize.read(file)
            for width in contents.head.widths:
                self.assertEqual(contents.show(width), multisize.show(file, width))

    def test_ranges(self):
        self.assertIn(b"(range 1 1)", multisize.build(WORKED, depth=1))
        self.assertIn(b"(range 2 0)", multisize.build(WORKED, growth=0))
        self.assertIn(b"(range 0 0)", multisize.build(Picture(1, 1, "rgb", b"\1\2\3")))

    def test_the_largest_pictures(self):
        for picture in (noise(512, 3, "rgb"), noise(3, 512, "grey"), Picture(10, 512, "grey", bytes(5120))):
            # Of the energies its word is the longest.
            file = multisize.build(picture, energy="forward")
            self.assertEqual(multisize.read(file).picture, picture)
            widest = multisize.show(file, multisize.check(file).widths[-1])
            self.assertEqual(widest.width, picture.width + picture.width // 2)

    def test_a_copy_is_as_good(self):
        self.assertEqual(multisize.check(bytearray(FILE)), multisize.check(memoryview(FILE)))


class Refusals(unittest.TestCase):
    def refused(self, number, function, *words, **named):
        with self.assertRaises(Refused) as caught:
            function(*words, **named)
        self.assertEqual(caught.exception.number, number)
        self.assertEqual(str(caught.exception), f"refused ({number}): {caught.exception.meaning}")

    def test_pictures(self):
        for number, picture in [
            (1, WORKED._replace(kind="gray")),
            (2, Picture(0, 2, "grey", b"")),
            (3, Picture(513, 1, "grey", bytes(513))),
            (3, Picture(2**63, 2**63, "rgb", b"")),
            (4, WORKED._replace(samples=bytes(5))),
            (4, WORKED._replace(samples=bytes(7))),
        ]:
            for function in (multisize.find, multisize.cut, multisize.build, multisize.retarget):
                self.refused(number, function, picture)
            self.refused(number, multisize.energies, picture, 0)
            self.refused(number, multisize.step_costs, picture, 0)
            self.refused(number, multisize.remove, picture, bytes(6))

    def test_each_number(self):
        self.refused(1, multisize.check, b"")
        for line in (b"", b"(energy steep)\n", b"(energy Edge)\n", b"(energy edge)\n(energy edge)\n"):
            self.refused(1, multisize.check, FILE.replace(b"(energy edge)\n", line))
        self.refused(1, multisize.find, WORKED, "diagonal")
        self.refused(1, multisize.energies, WORKED, 0, energy="Edge")
        self.refused(1, multisize.step_costs, WORKED, 0, energy="Forward")
        self.refused(1, multisize.remove, WORKED, bytes(6), energy=None)
        for function in (multisize.find, multisize.cut, multisize.retarget, multisize.build):
            self.refused(1, function, WORKED, energy="steep")
        for function in (multisize.find, multisize.cut):
            self.refused(1, function, WORKED, marks=bytes(6), energy=0)
        self.refused(4, multisize.energies, WORKED, 2)
        self.refused(4, multisize.step_costs, WORKED, 2)
        self.refused(4, multisize.find, WORKED, marks=bytes(5))
        self.refused(5, multisize.remove, WORKED, bytes([0, 0, 0, 0, 0, 3]))
        for depth, growth in [(3, 1), (2, 2), (0, 1), (2**64 - 1, 2**64 - 1)]:
            self.refused(6, multisize.build, WORKED, depth, growth)
        for width in (0, 5, 2**64 - 1):
            self.refused(7, multisize.show, FILE, width)
        for rows, columns in [(2, 0), (0, 3), (65, 0), (0, 2**63)]:
            self.refused(7, multisize.retarget, WORKED, rows, columns)
        self.refused(9, multisize.read, with_last_map(b"2 2 1"))
        self.refused(10, multisize.check, with_last_map(b"0 2 1"))
        self.refused(11, multisize.show, with_last_map(b"1 2 0"), 3)
        self.refused(11, multisize.check, FILE.replace(b"edge", b"flat"))
        self.refused(11, multisize.check, FLAT_FILE.replace(b"flat", b"edge"))
        self.refused(11, multisize.check, FILE.replace(b"edge", b"forward"))
        self.refused(11, multisize.check, FORWARD_FILE.replace(b"forward", b"flat"))
        self.refused(12, multisize.cut, WORKED, marks=bytes([1] * 6))
        self.refused(13, multisize.cut, Picture(1, 2, "grey", b"\1\2"))

    def test_what_was_read_and_changed(self):
        contents = multisize.read(FILE)
        for width in (0, 5, 2**64 - 1):
            self.refused(7, contents.show, width)
        self.refused(1, contents._replace(picture=WORKED._replace(kind="gray")).show, 2)
        self.refused(4, contents._replace(picture=WORKED._replace(samples=bytes(5))).show, 2)
        self.refused(4, contents._replace(map=contents.map[:5]).show, 2)
        self.refused(4, contents._replace(map=[0] * 6).show, 2)
        self.refused(4, contents._replace(map=[1] * 6).show, 4)

    def test_numbers_that_are_no_counts(self):
        for width in (-1, 2**64 + 3):
            self.assertRaises(ValueError, multisize.show, FILE, width)
        for budget in (-1, 65536):
            self.assertRaises(ValueError, multisize.remove, WORKED, bytes(6), budget)
        self.assertRaises(TypeError, multisize.show, FILE, 2.0)

    def test_a_refusal_is_handed_on(self):
        other = pickle.loads(pickle.dumps(Refused(7)))
        self.assertEqual((other.number, str(other)), (7, str(Refused(7))))


class Netpbm(unittest.TestCase):
    def test_what_is_written_is_read(self):
        for picture in (WORKED, noise(5, 4, "rgb"), Picture(3, 1, "grey", b"\n# ")):
            self.assertEqual(multisize.read_netpbm(multisize.write_netpbm(picture)), picture)
        with tempfile.TemporaryDirectory() as folder:
            multisize.save(f"{folder}/picture.pgm", WORKED)
            self.assertEqual(multisize.load(f"{folder}/picture.pgm"), WORKED)

    def test_headers_of_other_tools(self):
        for data in (b"P5\n# made by hand\n2 1\n255\nab", b"P5\r\n2 1\r\n255\nab", b"P5#\n2# 3\n\t 1\n#\n#255\n255 ab"):
            self.assertEqual(multisize.read_netpbm(data), (2, 1, "grey", b"ab"))

    def test_refusals(self):
        broken = [b"", b"P", b"P5", b"P2\n2 1\n255\n7 9", b"P52 1\n255\nab", b"P5\n2\n255\n", b"P5\n2 1\n255"]
        broken += [b"P5\n2 1\n256\nab", b"P5\n02 1\n255\nab", b"P5\n+2 1\n255\nab", b"P5\n65536 1\n255\nab"]
        broken += [b"P5\n2 1\n255#\nab", b"P5\n# no end"]
        others = [(2, b"P5\n0 1\n255\n"), (3, b"P5\n513 1\n255\n"), (4, b"P5\n2 1\n255\na"), (4, b"P5\n2 1\n255\nabc")]
        for number, data in [(1, data) for data in broken] + others:
            with self.assertRaises(Refused) as caught:
                multisize.read_netpbm(data)
            self.assertEqual(caught.exception.number, number, data)


@unittest.skipUnless(PROGRAM.exists(), "the program multisize isn't there")
class AsTheCommand(unittest.TestCase):
    """The command's own bytes, for pictures of both kinds."""

    def setUp(self):
        folder = tempfile.TemporaryDirectory()
        self.addCleanup(folder.cleanup)
        self.folder = pathlib.Path(folder.name)

    def run_command(self, *words):
        return subprocess.run([PROGRAM, *map(str, words)], cwd=self.folder, capture_output=True)

    def pictures(self):
        yield multisize.load(ROOT / "pictures/terrain-small.ppm")
        yield noise(23, 17, "grey")
        yield noise(14, 9, "rgb", seed=2)

    def test_files_and_widths(self):
        for picture, energy in itertools.product(self.pictures(), ("edge", "flat", "forward")):
            multisize.save(self.folder / "picture.ppm", picture)
            ran = self.run_command("build", "picture.ppm", "--energy", energy, "-o", "picture.multi")
            self.assertEqual(ran.returncode, 0)
            file = (self.folder / "picture.multi").read_bytes()
            self.assertEqual(multisize.build(picture, energy=energy), file)
            for width in multisize.check(file).widths:
                shown = self.run_command("show", "picture.multi", width, "-o", "-").stdout
                self.assertEqual(multisize.write_netpbm(multisize.show(file, width)), shown)

    def test_removals_and_retargets(self):
        for picture in self.pictures():
            multisize.save(self.folder / "picture.ppm", picture)
            pixels = picture.width * picture.height
            marks = bytes(2 if at % 7 == 3 else 0 for at in range(pixels))
            multisize.save(self.folder / "marks.pgm", Picture(picture.width, picture.height, "grey", marks))
            self.run_command("remove", "picture.ppm", "marks.pgm", "--budget", 5, "-o", "left.ppm")
            left = multisize.remove(picture, marks, 5).picture
            self.assertEqual(multisize.write_netpbm(left), (self.folder / "left.ppm").read_bytes())
            told = self.run_command("retarget", "picture.ppm", "--rows", 3, "--columns", 4, "-o", "left.ppm")
            given = multisize.retarget(picture, 3, 4)
            self.assertEqual(multisize.write_netpbm(given.picture), (self.folder / "left.ppm").read_bytes())
            self.assertEqual(told.stdout.decode(), f"total {given.total}\n")

    def test_refusals_in_the_same_words(self):
        files = {6: FILE.replace(b"(range 2", b"(range 3"), 9: with_last_map(b"2 2 1"), 10: with_last_map(b"0 2 1")}
        for number, file in files.items():
            (self.folder / "wrong.multi").write_bytes(file)
            told = self.run_command("check", "wrong.multi").stderr.decode()
            self.assertEqual(told, f"multisize: wrong.multi: {Refused(number)}\n")


if __name__ == "__main__":
    unittest.main()
