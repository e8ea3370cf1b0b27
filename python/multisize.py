"""Seam carving and multi-size files: the proved library, from Python.

    import multisize

    picture = multisize.load("picture.ppm")
    file = multisize.build(picture)
    narrow = multisize.show(file, 176)
    multisize.save("narrow.ppm", narrow)

Every seam, file and refusal comes from the shared library, whose functions are proved; what stands here lends them memory.
An operation that can't be served raises Refused, with the number and its meaning. Nothing that is passed is changed: what
an operation leaves of a picture or of marks is given back.

An operation on a picture finds its seams by the energy that the keyword `energy` names, "edge", "flat" or "forward", by default
"edge"; a word that names none is refused by 1. What they are, `energies` and `step_costs` say. A file names its own:
`check(file).energy`.

The shared library is looked for where MULTISIZE_LIBRARY says, then where ./install puts it beside this module, then where
the system keeps its libraries.
"""

import array
import ctypes
import operator
import os
import pathlib
from typing import NamedTuple, Optional

LARGEST_SIDE = 512
LARGEST_COUNT = 64

VERTICAL = "vertical"
HORIZONTAL = "horizontal"

EDGE = "edge"
FLAT = "flat"
FORWARD = "forward"

PLAIN = 0
PROTECTED = 1
TO_BE_REMOVED = 2

# The place of a word in its list is the number by which the library knows it.
_KINDS = ("grey", "rgb")
_AXES = (VERTICAL, HORIZONTAL)
_ENERGIES = (EDGE, FLAT, FORWARD)
_ENDINGS = (None, "done", "narrow", "spent", "blocked")
_NONE_OF_THEM = 255

_MEANINGS = (
    "served",
    "the text or the Netpbm header breaks its form, or a word names no kind, axis or energy",
    "width or height is 0",
    "width or height is over 512",
    "a buffer's length, or the number of rows, samples or map numbers, isn't what the size says",
    "a mark is over 2",
    "depth or growth isn't allowed",
    "the wanted width isn't offered, or a retarget leaves less than 1 row or column or takes more than 64",
    "the output space is shorter than the answer, or the work space is too short",
    "a map row lacks one of the numbers 1 to the depth, repeats one, or holds more",
    "a recorded seam isn't connected in the picture left before it",
    "a recorded seam isn't the one found",
    "every seam meets a protected pixel",
    "the last column or row can't be cut",
)


class Refused(Exception):
    """An operation was refused. Of several numbers the smallest is given."""

    def __init__(self, number: int):
        self.number = number
        self.meaning = _MEANINGS[number] if number < len(_MEANINGS) else "no refusal has this number"
        super().__init__(f"refused ({number}): {self.meaning}")

    def __reduce__(self):
        return Refused, (self.number,)


class Picture(NamedTuple):
    """Rows from the top, pixels from the left, without padding; kind is "grey" (1 byte a pixel) or "rgb" (3, red first)."""

    width: int
    height: int
    kind: str
    samples: bytes


class Seam(NamedTuple):
    """Its column in each row from the top, or its row in each column from the left; the cost is the sum of what its steps cost,
    by "edge" and "flat" the sum of its energies."""

    places: tuple
    cost: int


class StepCosts(NamedTuple):
    """What coming to each pixel of a row costs a vertical seam: from the column to its left in the row above, from straight
    above, and from the column to its right."""

    left: tuple
    up: tuple
    right: tuple


class Cut(NamedTuple):
    """What a cut leaves, and the seam that was cut. The marks are None where none were given."""

    picture: Picture
    marks: Optional[bytes]
    seam: Seam


class Removed(NamedTuple):
    """What a removal leaves, how it ended ("done", "narrow", "spent" or "blocked"), and how many seams were cut."""

    picture: Picture
    marks: bytes
    ending: str
    count: int


class Retargeted(NamedTuple):
    """The picture left, and the total of its seams' costs."""

    picture: Picture
    total: int


class Head(NamedTuple):
    """Size and range of a file, and the energy that its seams are found by."""

    width: int
    height: int
    kind: str
    depth: int
    growth: int
    energy: str = EDGE

    @property
    def widths(self) -> range:
        """The widths that the file offers."""
        return range(self.width - self.depth, self.width + self.growth + 1)


class Contents(NamedTuple):
    """The picture of a file, for each of its pixels the number of the seam that takes it or 0, and the head."""

    picture: Picture
    map: array.array
    head: Head

    def show(self, width: int) -> Picture:
        """The picture at a width. What `read` gives was checked, so this is what `show` gives of the file, without another
        check.

        Refused by 7 where the width isn't offered. Where picture or map was changed since, also by 4 where a row isn't shown at
        that width.
        """
        if _size(width) not in self.head.widths:
            raise Refused(7)
        rows = (_row_at(self, row, width) for row in range(self.picture.height))
        return Picture(width, self.picture.height, self.picture.kind, b"".join(rows))


def energies(picture: Picture, row: int, *, energy: str = EDGE) -> tuple:
    """The energies of a row: |right neighbour - it| + |lower neighbour - it|, the channels added. By "edge" the left neighbour
    is taken in the last column and the upper one in the last row; at width 1 the first difference is 0, at height 1 the
    second. By "flat" the first difference is 0 in the last column, and the second in the last row. By "forward" it is what a
    pixel costs that the seam comes to from straight above.

    Refused by 1 to 4, by 4 also where there is no such row.
    """
    out = _Space(ctypes.c_uint32, picture.width if picture.width <= LARGEST_SIDE else 0)
    _judge(_library.multisize_energies(*_lent(picture), _method(energy), _size(row), *out.lent))
    return tuple(out.front(picture.width))


def step_costs(picture: Picture, row: int, *, energy: str = EDGE) -> StepCosts:
    """What coming to each pixel of a row costs a vertical seam. By "edge" and "flat" all three are the pixel's energy. By
    "forward", the channels added, `up` is |right neighbour - left neighbour|, `left` that and |pixel above - left neighbour|,
    `right` that and |pixel above - right neighbour|; a neighbour past the side edge is the pixel itself. In row 0 all three are
    the first.

    Refused by 1 to 4, by 4 also where there is no such row.
    """
    length = picture.width if picture.width <= LARGEST_SIDE else 0
    spaces = [_Space(ctypes.c_uint32, length) for _ in StepCosts._fields]
    lent = (part for space in spaces for part in space.lent)
    _judge(_library.multisize_step_costs(*_lent(picture), _method(energy), _size(row), *lent))
    return StepCosts(*(tuple(space.front(picture.width)) for space in spaces))


def find(picture: Picture, axis: str = VERTICAL, marks: Optional[bytes] = None, *, energy: str = EDGE) -> Seam:
    """The cheapest seam along an axis, the first of equals. By marks: of those that touch no protected pixel the one with the
    most pixels to be removed, then the cheapest.

    Refused by 1 to 4; with marks also by 5 and 12.
    """
    seam, work = _seam_space(picture, axis), _work_space(picture)
    samples, size = _samples_and_size(picture)
    rest = (size, _method(energy), _number(axis, _AXES), *seam.lent, *work.lent)
    if marks is None:
        answer = _library.multisize_find(*samples.lent, *rest)
    else:
        answer = _library.multisize_find_marked(*samples.lent, *_Space.of(marks).lent, *rest)
    _judge(answer.number)
    return Seam(tuple(seam.front(_seam_length(picture, axis))), answer.value)


def cut(picture: Picture, axis: str = VERTICAL, marks: Optional[bytes] = None, *, energy: str = EDGE) -> Cut:
    """Cuts out the seam that `find` gives, of the marks too where they are given.

    Refused as `find` is, and by 13 at the last column or row.
    """
    seam, work = _seam_space(picture, axis), _work_space(picture)
    samples, size = _samples_and_size(picture)
    marked = None if marks is None else _Space.of(marks)
    rest = (size, _method(energy), _number(axis, _AXES), *seam.lent, *work.lent)
    if marked is None:
        answer = _library.multisize_cut(*samples.lent, *rest)
    else:
        answer = _library.multisize_cut_marked(*samples.lent, *marked.lent, *rest)
    _judge(answer.number)
    width, height = picture.width - (axis == VERTICAL), picture.height - (axis == HORIZONTAL)
    places = tuple(seam.front(_seam_length(picture, axis)))
    left = marked and marked.bytes(width * height)
    return Cut(_front(samples, width, height, picture.kind), left, Seam(places, answer.value))


def remove(picture: Picture, marks: bytes, budget: int = 65535, *, energy: str = EDGE) -> Removed:
    """Removes what is marked 2 by cutting vertical seams, at most `budget` of them, 0 to 65535.

    Refused by 1 to 5.
    """
    if not 0 <= operator.index(budget) <= 65535:
        raise ValueError("the budget is 0 to 65535")
    samples, size = _samples_and_size(picture)
    marked, work = _Space.of(marks), _work_space(picture)
    answer = _library.multisize_remove(*samples.lent, *marked.lent, size, _method(energy), budget, *work.lent)
    _judge(answer.number)
    width = picture.width - answer.count
    left = _front(samples, width, picture.height, picture.kind)
    return Removed(left, marked.bytes(width * picture.height), _ENDINGS[answer.ending], answer.count)


def retarget(picture: Picture, rows: int = 0, columns: int = 0, *, energy: str = EDGE) -> Retargeted:
    """Removes rows and columns, each 0 to 64, in the cheapest order that the table of cells finds.

    Refused by 1 to 4, and by 7 where a count is over 64 or no row or column would be left.
    """
    width, height = max(picture.width - _size(columns), 0), max(picture.height - _size(rows), 0)
    out = _Space(ctypes.c_uint8, _picture_bytes(width, height, picture.kind))
    whole = _picture_bytes(picture.width, picture.height, picture.kind)
    work = _Space(ctypes.c_uint8, 32 * _pixels(picture.width, picture.height) + 66 * whole)
    answer = _library.multisize_retarget(*_lent(picture), _method(energy), rows, columns, *out.lent, *work.lent)
    _judge(answer.number)
    return Retargeted(_front(out, width, height, picture.kind), answer.value)


def build(
    picture: Picture, depth: Optional[int] = None, growth: Optional[int] = None, *, energy: str = EDGE
) -> bytes:
    """The multi-size file of a picture, which names the energy. The depth is by default the width less 1, the growth the most
    that is allowed.

    Refused by 1 to 4, and by 6 where depth or growth isn't allowed.
    """
    depth = max(picture.width - 1, 0) if depth is None else _size(depth)
    growth = min(depth, picture.width // 2) if growth is None else _size(growth)
    pixels = _pixels(picture.width, picture.height)
    out = _Space(ctypes.c_uint8, 62 + 12 * picture.height + pixels * (18 if picture.kind == "rgb" else 8) if pixels else 0)
    lent = (*_lent(picture), _method(energy), depth, growth, *out.lent, *_work_space(picture).lent)
    answer = _library.multisize_build(*lent)
    _judge(answer.number)
    return out.bytes(answer.value)


def check(file: bytes) -> Head:
    """Checks a file, any bytes, by the energy that it names, and gives its head. Accepted are the files that `build` gives, and
    no others.

    Refused by 1 to 4, 6, 9, 10 and 11.
    """
    return _head(_library.multisize_check(*_Space.of(file).lent, *_file_work(file).lent))


def read(file: bytes) -> Contents:
    """Checks a file and gives its picture and map. Refused as `check` is."""
    samples = _Space(ctypes.c_uint8, _most_shown(file))
    numbers = _Space(ctypes.c_uint16, min(len(file) // 4, LARGEST_SIDE * LARGEST_SIDE))
    answer = _library.multisize_read(*_Space.of(file).lent, *samples.lent, *numbers.lent, *_file_work(file).lent)
    head = _head(answer)
    picture = _front(samples, head.width, head.height, head.kind)
    return Contents(picture, array.array("H", numbers.front(head.width * head.height)), head)


def show(file: bytes, width: int) -> Picture:
    """Checks a file and gives its picture at a width. Refused as `check` is, and by 7 where the width isn't offered."""
    out = _Space(ctypes.c_uint8, _most_shown(file))
    answer = _library.multisize_show(*_Space.of(file).lent, _size(width), *out.lent, *_file_work(file).lent)
    _judge(answer.number)
    return _front(out, answer.size.width, answer.size.height, _KINDS[answer.size.kind])


def read_netpbm(data: bytes) -> Picture:
    """The picture of a Netpbm file, P5 or P6 with samples up to 255. White space and comments may stand in the header.

    Refused by 1 for the header, by 2 and 3 for the sides, by 4 where there are more or fewer samples than the size says.
    """
    kind = {b"P5": "grey", b"P6": "rgb"}.get(bytes(data[:2]))
    if kind is None:
        raise Refused(1)
    at, numbers = 2, []
    for _ in range(3):
        at = _after_gap(data, at)
        number, at = _header_number(data, at)
        numbers.append(number)
    width, height, largest = numbers
    if largest != 255 or data[at : at + 1] not in _WHITE:
        raise Refused(1)
    picture = Picture(width, height, kind, bytes(data[at + 1 :]))
    # The library judges size and length. No row fits no space, so where 2 to 4 don't apply the number is 8.
    number = _library.multisize_energies(*_lent(picture), _method(EDGE), 0, *_Space(ctypes.c_uint32, 0).lent)
    if number != 8:
        _judge(number)
    return picture


def write_netpbm(picture: Picture) -> bytes:
    """The bytes of a picture's Netpbm file, with the plainest header."""
    magic = {"grey": "P5", "rgb": "P6"}[picture.kind]
    return f"{magic}\n{picture.width} {picture.height}\n255\n".encode() + picture.samples


def load(path) -> Picture:
    """Reads a Netpbm file from a path."""
    return read_netpbm(pathlib.Path(path).read_bytes())


def save(path, picture: Picture) -> None:
    """Writes a picture to a path as Netpbm."""
    pathlib.Path(path).write_bytes(write_netpbm(picture))


# Netpbm headers

_WHITE = (b" ", b"\t", b"\n", b"\v", b"\f", b"\r")


def _after_gap(data, at):
    """The place after white space and comments, of which there must be some. A comment runs to the end of its line."""
    start = at
    while data[at : at + 1] in _WHITE or data[at : at + 1] == b"#":
        if data[at : at + 1] == b"#":
            at = data.find(b"\n", at)
            if at < 0:
                raise Refused(1)
        else:
            at += 1
    if at == start:
        raise Refused(1)
    return at


def _header_number(data, at):
    """A number of 0 to 65535 without leading zeros, and the place after it."""
    end = at
    while b"0" <= data[end : end + 1] <= b"9":
        end += 1
    digits = bytes(data[at:end])
    if not digits or len(digits) > 5 or (len(digits) > 1 and digits[:1] == b"0") or int(digits) > 65535:
        raise Refused(1)
    return int(digits), end


# Spaces to lend


class _Space:
    """Memory to lend: zeros, or a copy of what is given, so that nothing of the caller's is changed."""

    def __init__(self, element, length):
        # One element at least, so that the pointer is valid also where none are lent.
        self.elements = (element * max(length, 1))()
        self.lent = (self.elements, length)

    @classmethod
    def of(cls, data, element=ctypes.c_uint8):
        space = cls(element, len(data) // ctypes.sizeof(element))
        ctypes.memmove(space.elements, bytes(data), len(data))
        return space

    def front(self, length):
        return self.elements[:length]

    def bytes(self, length):
        return ctypes.string_at(self.elements, length)


def _pixels(width, height):
    """Pixels of a picture. A size that is refused whatever is lent has 0."""
    return 0 if width > LARGEST_SIDE or height > LARGEST_SIDE else width * height


def _picture_bytes(width, height, kind):
    return _pixels(width, height) * (3 if kind == "rgb" else 1)


def _samples_and_size(picture):
    size = _HostSize(_size(picture.width), _size(picture.height), _number(picture.kind, _KINDS))
    return _Space.of(picture.samples), size


def _lent(picture):
    samples, size = _samples_and_size(picture)
    return (*samples.lent, size)


def _seam_length(picture, axis):
    return picture.width if axis == HORIZONTAL else picture.height


def _seam_space(picture, axis):
    length = _seam_length(picture, axis)
    return _Space(ctypes.c_uint16, length if length <= LARGEST_SIDE else 0)


def _work_space(picture):
    return _Space(ctypes.c_uint8, 32 * _pixels(picture.width, picture.height))


def _file_work(file):
    """Work space for a file: a pixel takes at least 4 bytes of text, and 32 bytes of work space."""
    return _Space(ctypes.c_uint8, min(8 * len(file), 32 * LARGEST_SIDE * LARGEST_SIDE))


def _most_shown(file):
    """No file of this length shows more bytes: a grey pixel takes at least 4 bytes of text, an rgb pixel 10, and the widest
    picture is half as wide again."""
    return min(len(file) // 2, 3 * LARGEST_SIDE * LARGEST_SIDE * 3 // 2)


def _front(space, width, height, kind):
    """The picture at the front of a space."""
    return Picture(width, height, kind, space.bytes(width * height * (3 if kind == "rgb" else 1)))


def _row_at(contents, row, width):
    """A row of what was read, at a width."""
    picture = contents.picture
    bytes_each = 3 if picture.kind == "rgb" else 1
    samples = picture.samples[row * picture.width * bytes_each : (row + 1) * picture.width * bytes_each]
    numbers = array.array("H", contents.map[row * picture.width : (row + 1) * picture.width]).tobytes()
    # No pixel is shown more than twice.
    out = _Space(ctypes.c_uint8, 2 * len(samples))
    lent = (*_Space.of(samples).lent, _number(picture.kind, _KINDS), *_Space.of(numbers, ctypes.c_uint16).lent)
    answer = _library.multisize_row_at(*lent, width, *out.lent)
    _judge(answer.number)
    if answer.value != width * bytes_each:
        raise Refused(4)
    return out.bytes(answer.value)


# Numbers passed and given


def _size(number):
    """A count as the library takes it, 64 bits: ctypes would cut off the rest."""
    number = operator.index(number)
    if not 0 <= number < 1 << 64:
        raise ValueError(f"{number} isn't a count")
    return number


def _number(word, words):
    """The number of a word; what is none of them is passed as a number that names none, which is refused by 1."""
    return words.index(word) if word in words else _NONE_OF_THEM


def _method(energy):
    return _HostMethod(_number(energy, _ENERGIES))


def _judge(number):
    if number != 0:
        raise Refused(number)


def _head(answer):
    _judge(answer.number)
    size, energy = answer.size, _ENERGIES[answer.method.energy]
    return Head(size.width, size.height, _KINDS[size.kind], answer.depth, answer.growth, energy)


# The shared library


def _structure(name, **fields):
    return type(name, (ctypes.Structure,), {"_fields_": list(fields.items())})


_NUMBER = ctypes.c_uint64
_HostSize = _structure("_HostSize", width=ctypes.c_size_t, height=ctypes.c_size_t, kind=ctypes.c_uint8)
_HostMethod = _structure("_HostMethod", energy=ctypes.c_uint8)
_Answer = _structure("_Answer", number=_NUMBER, value=_NUMBER)
_Ended = _structure("_Ended", number=_NUMBER, ending=_NUMBER, count=_NUMBER)
_FileAnswer = _structure(
    "_FileAnswer", number=_NUMBER, size=_HostSize, method=_HostMethod, depth=_NUMBER, growth=_NUMBER
)
_SizeAnswer = _structure("_SizeAnswer", number=_NUMBER, size=_HostSize)

_BYTES = (ctypes.POINTER(ctypes.c_uint8), ctypes.c_size_t)
_SHORTS = (ctypes.POINTER(ctypes.c_uint16), ctypes.c_size_t)
_WORDS = (ctypes.POINTER(ctypes.c_uint32), ctypes.c_size_t)

# What each function takes and gives, as include/multisize.h declares it.
_DECLARED = {
    "energies": (_NUMBER, *_BYTES, _HostSize, _HostMethod, ctypes.c_size_t, *_WORDS),
    "step_costs": (_NUMBER, *_BYTES, _HostSize, _HostMethod, ctypes.c_size_t, *_WORDS, *_WORDS, *_WORDS),
    "find": (_Answer, *_BYTES, _HostSize, _HostMethod, ctypes.c_uint8, *_SHORTS, *_BYTES),
    "cut": (_Answer, *_BYTES, _HostSize, _HostMethod, ctypes.c_uint8, *_SHORTS, *_BYTES),
    "find_marked": (_Answer, *_BYTES, *_BYTES, _HostSize, _HostMethod, ctypes.c_uint8, *_SHORTS, *_BYTES),
    "cut_marked": (_Answer, *_BYTES, *_BYTES, _HostSize, _HostMethod, ctypes.c_uint8, *_SHORTS, *_BYTES),
    "remove": (_Ended, *_BYTES, *_BYTES, _HostSize, _HostMethod, ctypes.c_uint16, *_BYTES),
    "retarget": (_Answer, *_BYTES, _HostSize, _HostMethod, ctypes.c_size_t, ctypes.c_size_t, *_BYTES, *_BYTES),
    "build": (_Answer, *_BYTES, _HostSize, _HostMethod, ctypes.c_size_t, ctypes.c_size_t, *_BYTES, *_BYTES),
    "check": (_FileAnswer, *_BYTES, *_BYTES),
    "read": (_FileAnswer, *_BYTES, *_BYTES, *_SHORTS, *_BYTES),
    "show": (_SizeAnswer, *_BYTES, ctypes.c_size_t, *_BYTES, *_BYTES),
    "row_at": (_Answer, *_BYTES, ctypes.c_uint8, *_SHORTS, ctypes.c_size_t, *_BYTES),
}

_FILE_NAME = "libmultisize.so.0"


def _loaded():
    named = os.environ.get("MULTISIZE_LIBRARY")
    # ./install puts the module into PREFIX/lib/pythonX.Y/site-packages and the library into PREFIX/lib.
    near = [folder / _FILE_NAME for folder in list(pathlib.Path(__file__).resolve().parents)[:3]]
    path = named or next((str(path) for path in near if path.exists()), _FILE_NAME)
    try:
        library = ctypes.CDLL(path)
    except OSError as error:
        raise ImportError(f"the library of multisize can't be loaded ({error}); ./install makes it") from error
    for name, (gives, *takes) in _DECLARED.items():
        function = getattr(library, f"multisize_{name}")
        function.restype, function.argtypes = gives, takes
    return library


_library = _loaded()
