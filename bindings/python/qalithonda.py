"""UTF-7 (RFC 2152), ISO-2022-JP-2 (RFC 1554) and mailbox names of IMAP (RFC 3501, section 5.1.3), read, written and
stepped through, letters of the first two edited, one at a time or two over one history, and subject lines (RFC 2047)
read and written, over libqalithonda.so.

>>> from qalithonda import utf7, jp2, mailbox
>>> utf7.read(b"A+ImIDkQ.") == [0x41, 0x2262, 0x391, 0x2E]
True
>>> jp2.tally(jp2.read(b"a b"))
[3, 0, 0, 0, 0, 0, 0, 0, 0]
>>> mailbox.write(mailbox.read(b"~peter/&ZeVnLIqe-"))
b'~peter/&ZeVnLIqe-'

A refused call raises Refused and changes nothing. The library is looked for in the folder that the environment variable
QALITHONDA_LIB names, or in ../../target/shared from here.
"""

import ctypes
import enum
import operator
import os
import sys
from array import array
from pathlib import Path
from typing import Callable, Iterable, List, NamedTuple, Optional, Tuple, TypeVar, Union

__all__ = [
    "LIMIT",
    "Bench",
    "Benches",
    "Kind",
    "Letter",
    "Page",
    "Part",
    "Refusal",
    "Refused",
    "RefusedText",
    "Same",
    "Step",
    "Steps",
    "Text",
    "jp2",
    "mailbox",
    "subject",
    "utf7",
]

#: The most bytes that a text may have, the most cells that a list or a page may have, and the most words of a history.
LIMIT = 1048576


class Refusal(enum.IntEnum):
    """Why a call was refused. What the place counts is said with each."""

    HIGH_BYTE = 1  #: a byte of 128 or more: that byte
    LONE_SIGN = 2  #: '+', in a name '&', followed by neither a letter nor '-': the next byte, or the text's length
    STRAY_BYTE = 3  #: a byte that no rule allows there: that byte
    #: left-over bits of a run not zero, or six or more of them in UTF-7: the byte that ends it (in a name '-'), or the
    #: text's length
    LEFT_OVER_BITS = 4
    UNKNOWN_ESCAPE = 5  #: an escape neither ESC N nor a designation: the first byte that fits none
    EMPTY_G2 = 6  #: ESC N with nothing in G2: the N
    CUT_SHORT = 7  #: the text ends in an escape, in a pair or after ESC N, or a name in a run: the text's length
    NOT_ASCII = 8  #: the text ends with G0 not ASCII: the text's length
    NO_ROOM = 9  #: too little room: the elements needed in all
    UNWRITABLE = 10  #: a cell not writable in this kind: its index
    #: place plus count beyond the page's length: that length. Steps to squeeze fewer than two, or more than stand: 0
    BEYOND_LENGTH = 11
    HISTORY_FULL = 12  #: the step does not fit the history: the words needed in all
    NOTHING_LEFT = 13  #: nothing to undo or redo: 0
    #: the page of a page file is not sound, or does not fit the room for text: 0 (a Page is always sound, and so are
    #: Benches)
    UNSOUND = 14
    #: the arrived bytes of a page file do not read as the text, or as so many cells as the page was opened with: 0
    #: (those of a Page that was opened always do)
    NOT_THE_TEXT = 15
    OVER_LIMIT = 16  #: more than LIMIT elements, or 512 bytes for jp2.plain_read: that limit
    #: a needless shift in a mailbox name. A unit of 32 to 126 in a run: the letter that completes it. A run directly
    #: after a run: its first letter. Six or more left-over bits, all zero: the '-' that closes the run.
    NEEDLESS_SHIFT = 17
    BAD_PAGE_FILE = 18  #: a bad page file: the first byte that no page file can have there, or its length
    NO_GAIN = 19  #: squeezed, the history would not become shorter: 0
    NO_SUCH_BENCH = 20  #: no such bench, they are 0 and 1: 0
    #: a bad word in a subject line: the first byte that no line of such words can have there, or its length
    BAD_WORD = 21


_MESSAGES = {
    Refusal.HIGH_BYTE: "the byte at {} is 128 or more",
    Refusal.LONE_SIGN: "'+' or '&' is followed by neither a Base64 letter nor '-' at {}",
    Refusal.STRAY_BYTE: "no rule allows the byte at {} there",
    Refusal.LEFT_OVER_BITS: "the run that ends at {} has left-over bits that are not zero, or six or more",
    Refusal.UNKNOWN_ESCAPE: "the byte at {} fits no escape",
    Refusal.EMPTY_G2: "ESC N at {} with nothing in G2",
    Refusal.CUT_SHORT: "the text ends at {} in an escape, a pair or a run, or after ESC N",
    Refusal.NOT_ASCII: "the text ends at {} with G0 not ASCII",
    Refusal.NO_ROOM: "too little room, {} elements are needed",
    Refusal.UNWRITABLE: "the cell at {} is not writable in this kind",
    Refusal.BEYOND_LENGTH: "place plus count is beyond the length, {}, or there are not so many steps to squeeze",
    Refusal.HISTORY_FULL: "the step does not fit the history, {} words are needed",
    Refusal.NOTHING_LEFT: "there is nothing to undo or redo",
    Refusal.UNSOUND: "the page is not sound",
    Refusal.NOT_THE_TEXT: "the arrived bytes do not read as the text",
    Refusal.OVER_LIMIT: "there are more than {} elements",
    Refusal.NEEDLESS_SHIFT: "there is a needless shift, noticed at {}",
    Refusal.BAD_PAGE_FILE: "it is no page file, as is seen at {}",
    Refusal.NO_GAIN: "squeezed, the history would not become shorter",
    Refusal.NO_SUCH_BENCH: "there is no such bench",
    Refusal.BAD_WORD: "no line of such words has the byte at {} there, or ends there",
}


class Refused(Exception):
    """A refused call, with its number (also as a Refusal) and place.

    >>> try:
    ...     utf7.read(b"+AKN-")
    ... except Refused as refused:
    ...     print(refused.number, refused.place, refused.refusal.name)
    ...     print(refused)
    4 4 LEFT_OVER_BITS
    refused with 4: the run that ends at 4 has left-over bits that are not zero, or six or more
    """

    def __init__(self, number: int, place: int) -> None:
        super().__init__(number, place)
        self.number = number
        self.place = place

    @property
    def refusal(self) -> Refusal:
        return Refusal(self.number)

    def __str__(self) -> str:
        return "refused with {}: {}".format(self.number, _MESSAGES[self.refusal].format(self.place))


class Text(enum.IntEnum):
    """One of two texts that are compared."""

    FIRST = 1
    SECOND = 2


class RefusedText(Refused):
    """A refusal of one of two texts that are compared: `text` says of which.

    >>> utf7.compare(b"ab", b"b~")
    Traceback (most recent call last):
    qalithonda.RefusedText: the second text is refused with 3: no rule allows the byte at 1 there
    """

    def __init__(self, text: Text, number: int, place: int) -> None:
        super().__init__(number, place)
        self.args = (text, number, place)
        self.text = Text(text)

    def __str__(self) -> str:
        return "the {} text is {}".format(self.text.name.lower(), super().__str__())


# The C interface, as include/qalithonda.h declares it.

_Byte, _Word, _Size = ctypes.c_uint8, ctypes.c_uint32, ctypes.c_size_t


class _Numbers(ctypes.Structure):
    _fields_ = [("number", _Word), ("place", _Size)]


class _Page(ctypes.Structure):
    _fields_ = [
        ("kind", _Word),
        ("opening", _Size),
        ("length", _Size),
        ("used", _Size),
        ("done", _Size),
        ("saved", _Size),
    ]


#: The `saved` of a page that has no mark.
_NEVER_SAVED = _Size(-1).value


class _Edited(ctypes.Structure):
    _fields_ = [("answer", _Numbers), ("page", _Page)]


class _Bench(ctypes.Structure):
    _fields_ = [("kind", _Word), ("opening", _Size), ("length", _Size), ("standing", _Size), ("saved", _Size)]


class _Benches(ctypes.Structure):
    _fields_ = [("bench0", _Bench), ("bench1", _Bench), ("used", _Size)]


class _BenchesEdited(ctypes.Structure):
    _fields_ = [("answer", _Numbers), ("benches", _Benches)]


class _Asked(ctypes.Structure):
    _fields_ = [("answer", _Numbers), ("unchanged", _Word)]


class _Compared(ctypes.Structure):
    _fields_ = [
        ("answer", _Numbers),
        ("text", _Word),
        ("same", _Word),
        ("index", _Size),
        ("first", _Size),
        ("second", _Size),
    ]


class _Utf7Cursor(ctypes.Structure):
    _fields_ = [("at", _Size), ("handed", _Size), ("shift", _Word), ("pending", _Word), ("value", _Word)]


class _Utf7Stepped(ctypes.Structure):
    _fields_ = [
        ("given", _Word),
        ("cell", _Word),
        ("begin", _Size),
        ("end", _Size),
        ("answer", _Numbers),
        ("next", _Utf7Cursor),
    ]


class _Jp2Cursor(ctypes.Structure):
    _fields_ = [
        ("at", _Size),
        ("handed", _Size),
        ("g0", ctypes.c_uint16),
        ("g2", ctypes.c_uint16),
        ("phase", _Byte),
        ("first", _Byte),
        ("second", _Byte),
    ]


class _Jp2Stepped(ctypes.Structure):
    _fields_ = [
        ("given", _Word),
        ("cell", _Word),
        ("begin", _Size),
        ("end", _Size),
        ("answer", _Numbers),
        ("next", _Jp2Cursor),
    ]


class _MailboxCursor(ctypes.Structure):
    _fields_ = [("at", _Size), ("handed", _Size), ("shift", _Word), ("pending", _Word), ("value", _Word)]


class _MailboxStepped(ctypes.Structure):
    _fields_ = [
        ("given", _Word),
        ("cell", _Word),
        ("begin", _Size),
        ("end", _Size),
        ("answer", _Numbers),
        ("next", _MailboxCursor),
    ]


def _load():
    folder = os.environ.get("QALITHONDA_LIB") or Path(__file__).resolve().parent / "../../target/shared"
    file = Path(folder, "libqalithonda.so").resolve()
    if not file.exists():
        raise ImportError(
            "{} is not there: run `make` in the root of Qalithonda's repository, "
            "or set QALITHONDA_LIB to the folder that has libqalithonda.so".format(file)
        )
    # Unlike CDLL this keeps the interpreter's lock: calls are short, and no other thread can change what they are lent.
    return ctypes.PyDLL(str(file))


_library = _load()
_BYTES = (ctypes.c_char_p, _Size)
_OUT = (ctypes.POINTER(_Byte), _Size)
_WORDS = (ctypes.POINTER(_Word), _Size)


def _function(name, result, *parameters):
    function = getattr(_library, "qalithonda_" + name)
    function.restype = result
    function.argtypes = parameters
    return function


_utf7_read = _function("utf7_read", _Numbers, *_BYTES, *_WORDS)
_utf7_header_write = _function("utf7_header_write", _Numbers, *_WORDS, *_OUT)
_utf7_body_write = _function("utf7_body_write", _Numbers, *_WORDS, *_OUT)
_utf7_start = _function("utf7_start", _Utf7Cursor)
_utf7_step = _function("utf7_step", _Utf7Stepped, *_BYTES, _Utf7Cursor)
_utf7_compare = _function("utf7_compare", _Compared, *_BYTES, *_BYTES)
_jp2_read = _function("jp2_read", _Numbers, *_BYTES, *_WORDS)
_jp2_plain_read = _function("jp2_plain_read", _Numbers, *_BYTES, *_WORDS)
_jp2_write = _function("jp2_write", _Numbers, *_WORDS, *_OUT)
_jp2_tally = _function("jp2_tally", _Numbers, *_WORDS, ctypes.POINTER(_Word))
_jp2_start = _function("jp2_start", _Jp2Cursor)
_jp2_step = _function("jp2_step", _Jp2Stepped, *_BYTES, _Jp2Cursor)
_jp2_compare = _function("jp2_compare", _Compared, *_BYTES, *_BYTES)
_mailbox_read = _function("mailbox_read", _Numbers, *_BYTES, *_WORDS)
_mailbox_write = _function("mailbox_write", _Numbers, *_WORDS, *_OUT)
_mailbox_start = _function("mailbox_start", _MailboxCursor)
_mailbox_step = _function("mailbox_step", _MailboxStepped, *_BYTES, _MailboxCursor)
_mailbox_compare = _function("mailbox_compare", _Compared, *_BYTES, *_BYTES)
_subject_read = _function("subject_read", _Numbers, *_BYTES, *_WORDS)
_subject_write = _function("subject_write", _Numbers, *_WORDS, *_OUT)
_utf7_header_open = _function("utf7_header_open", _Edited, *_BYTES, *_WORDS, *_WORDS)
_utf7_body_open = _function("utf7_body_open", _Edited, *_BYTES, *_WORDS, *_WORDS)
_jp2_open = _function("jp2_open", _Edited, *_BYTES, *_WORDS, *_WORDS)
_replace = _function("replace", _Edited, _Page, _Size, _Size, *_WORDS, *_WORDS, *_WORDS)
_undo = _function("undo", _Edited, _Page, *_WORDS, *_WORDS)
_redo = _function("redo", _Edited, _Page, *_WORDS, *_WORDS)
_save = _function("save", _Edited, _Page, *_WORDS, *_WORDS, *_BYTES, *_OUT)
_squeeze = _function("squeeze", _Edited, _Page, _Size, *_WORDS, *_WORDS, *_WORDS)
_unchanged = _function("unchanged", _Asked, _Page, *_WORDS, *_WORDS)
_page_keep = _function("page_keep", _Numbers, _Page, *_WORDS, *_WORDS, *_BYTES, *_OUT)
_page_read = _function("page_read", _Edited, *_BYTES, *_OUT, *_WORDS, *_WORDS)
_BUFFERS = (*_WORDS, *_WORDS, *_WORDS)
_benches_open = _function("benches_open", _BenchesEdited, _Word, _Word, *_BYTES, *_BYTES, *_BUFFERS)
_benches_replace = _function("benches_replace", _BenchesEdited, _Benches, _Size, _Size, _Size, *_WORDS, *_BUFFERS)
_benches_undo = _function("benches_undo", _BenchesEdited, _Benches, _Size, *_BUFFERS)
_benches_redo = _function("benches_redo", _BenchesEdited, _Benches, _Size, *_BUFFERS)
_benches_save = _function("benches_save", _BenchesEdited, _Benches, _Size, *_BUFFERS, *_BYTES, *_OUT)
_benches_unchanged = _function("benches_unchanged", _Asked, _Benches, _Size, *_BUFFERS)


# From Python to C and back. ctypes would cut a number that is too large down without a word, so none gets there.


def _bytes(text) -> bytes:
    return text if isinstance(text, bytes) else memoryview(text).tobytes()


def _words(cells: Iterable[int]):
    numbers = array("I", iter(cells))
    return (_Word * len(numbers)).from_buffer_copy(numbers)


def _size(number: int) -> int:
    number = operator.index(number)
    if not 0 <= number <= _Size(-1).value:
        raise OverflowError("{} is not a place, count, room or bench".format(number))
    return number


def _accepted(numbers: _Numbers) -> int:
    if numbers.number != 0:
        raise Refused(numbers.number, numbers.place)
    return numbers.place


def _filled(element, call):
    """What a call fills, in an array of exactly that length: asked with no room, the call says how much it needs."""
    numbers = call((element * 0)(), 0)
    needed = numbers.place if numbers.number == Refusal.NO_ROOM else _accepted(numbers)
    output = (element * needed)()
    _accepted(call(output, needed))
    return output


def _saved(call, put):
    """What put gives for the bytes of a save, and what the save gives besides."""
    edited = None

    def told(out, room):
        nonlocal edited
        edited = call(out, room)
        return edited.answer

    given = put(bytes(_filled(_Byte, told)))
    return given, edited


def _buffer(room: int):
    # One element over the limit is enough to be refused, so no more than that is allocated.
    return (_Word * min(_size(room), LIMIT + 1))()


def _mark(saved: int) -> Optional[int]:
    return None if saved == _NEVER_SAVED else saved


def _read(function, text) -> List[int]:
    text = _bytes(text)
    return list(_filled(_Word, lambda cells, room: function(text, len(text), cells, room)))


def _write(function, cells: Iterable[int]) -> bytes:
    cells = _words(cells)
    return bytes(_filled(_Byte, lambda out, room: function(cells, len(cells), out, room)))


class Step(NamedTuple):
    """A cell, and where its bytes begin and end: they are text[begin:end].

    In a run these are from the letter that holds the cell's first bit to the one that holds its last: three letters or
    four, of which two neighbours may share one. Elsewhere they are the cell's own byte, its pair, the two bytes of '+-' or
    '&-', or ESC N and its byte; never a designation.

    >>> text = b"A+ImIDkQ."
    >>> [text[step.begin : step.end] for step in utf7.steps(text)]
    [b'A', b'ImI', b'IDkQ', b'.']
    """

    cell: int
    begin: int
    end: int


class Steps:
    """Steps through a text, one cell at a time: an iterator over the cells complete before the first fault, each as a
    Step with where its bytes begin and end, made by utf7.steps, jp2.steps or mailbox.steps.

    >>> steps = utf7.steps(b"A+ImIDkQ~")
    >>> for cell, begin, end in steps:
    ...     print(format(cell, "04X"), begin, end)
    0041 0 1
    2262 2 5
    0391 4 8
    >>> steps.answer()
    Traceback (most recent call last):
    qalithonda.Refused: refused with 3: no rule allows the byte at 8 there
    """

    def __init__(self, text, start, step) -> None:
        self._text = _bytes(text)
        self._cursor = start()
        self._function = step

    def __iter__(self) -> "Steps":
        return self

    def __next__(self) -> Step:
        stepped = self._step(self._cursor)
        if not stepped.given:
            raise StopIteration
        self._cursor = stepped.next
        return Step(stepped.cell, stepped.begin, stepped.end)

    def answer(self) -> int:
        """The answer of reading the whole text: the count of its cells, or Refused with the first fault.

        It can be asked at any time, and moves nothing. What was not stepped through yet is looked at for it.
        """
        stepped = self._step(self._cursor)
        while stepped.given:
            stepped = self._step(stepped.next)
        return _accepted(stepped.answer)

    def _step(self, cursor):
        return self._function(self._text, len(self._text), cursor)


class Same(NamedTuple):
    """Two texts that read as the same cells, and how many these are."""

    count: int


class Part(NamedTuple):
    """Where two texts part: the index of the first cell that is not the same in both, or that only one text has, and where
    its bytes begin in each; a text that has ended has its length there."""

    index: int
    first: int
    second: int


def _compare(function, first, second) -> Union[Same, Part]:
    first, second = _bytes(first), _bytes(second)
    found = function(first, len(first), second, len(second))
    if found.answer.number != 0:
        raise RefusedText(Text(found.text), found.answer.number, found.answer.place)
    return Same(found.answer.place) if found.same else Part(found.index, found.first, found.second)


class utf7:
    """UTF-7 (RFC 2152). A cell is a UTF-16 unit, 0 to 65535; half a surrogate pair is a unit like any other.

    >>> utf7.write(utf7.Style.BODY, [0x65E5, 0x672C, 0x8A9E])
    b'+ZeVnLIqe-'
    """

    class Style(enum.Enum):
        """Which characters are written as themselves."""

        HEADER = "header"  #: letters, digits, '(),-./:? and space, tab, CR and LF
        BODY = "body"  #: those, and !"#$%&*;<=>@[]^_`{|}

    @staticmethod
    def read(text: bytes) -> List[int]:
        """The cells of a text. Refused with 16, 1, 2, 3 or 4."""
        return _read(_utf7_read, text)

    @staticmethod
    def write(style: "utf7.Style", cells: Iterable[int]) -> bytes:
        """The text of these cells. Refused with 16, or 10 for a cell above 65535."""
        header = utf7.Style(style) is utf7.Style.HEADER
        return _write(_utf7_header_write if header else _utf7_body_write, cells)

    @staticmethod
    def steps(text: bytes) -> Steps:
        """Steps through a text, one cell at a time, each with where its bytes begin and end."""
        return Steps(text, _utf7_start, _utf7_step)

    @staticmethod
    def compare(first: bytes, second: bytes) -> Union[Same, Part]:
        """Whether two texts read as the same cells, however each spells them, or where they part.

        Both are read to their ends: RefusedText, with the numbers of read, is raised for the first text before the second.

        >>> utf7.compare(b"A+ImIDkQ.", b"A+ImI-+A5E-.")
        Same(count=4)
        >>> utf7.compare(b"Hi!", b"Hi+ADs-")
        Part(index=2, first=2, second=3)
        """
        return _compare(_utf7_compare, first, second)


class jp2:
    r"""ISO-2022-JP-2 (RFC 1554). A cell is its set's registration number times 65536, plus the code as sent.

    >>> jp2.read(b'\x1b$B$"\x1b(B') == [87 * 65536 + 0x2422]
    True
    >>> jp2.write([0x572422])
    b'\x1b$B$"\x1b(B'
    """

    #: The registration numbers of the nine sets, in the order of tally's counts.
    SETS = (6, 14, 42, 58, 87, 100, 126, 149, 159)

    @staticmethod
    def read(text: bytes) -> List[int]:
        """The cells of a text. Refused with 16, 1, 3, 5, 6, 7 or 8."""
        return _read(_jp2_read, text)

    @staticmethod
    def plain_read(text: bytes) -> List[int]:
        """The cells of a text of at most 512 bytes, by a second reader that was written plainly from RFC 1554's formal
        syntax: for tests. Refused with 16 at 512; on any other text it gives what read gives."""
        return _read(_jp2_plain_read, text)

    @staticmethod
    def write(cells: Iterable[int]) -> bytes:
        """The text of these cells. Refused with 16, or 10 for what is no cell of one of the nine sets."""
        return _write(_jp2_write, cells)

    @staticmethod
    def tally(cells: Iterable[int]) -> List[int]:
        """How many cells each set has, in the order of SETS. Refused as write is."""
        cells = _words(cells)
        counts = (_Word * 9)()
        _accepted(_jp2_tally(cells, len(cells), counts))
        return list(counts)

    @staticmethod
    def steps(text: bytes) -> Steps:
        """Steps through a text, one cell at a time, each with where its bytes begin and end."""
        return Steps(text, _jp2_start, _jp2_step)

    @staticmethod
    def compare(first: bytes, second: bytes) -> Union[Same, Part]:
        """Whether two texts read as the same cells, or where they part, as utf7.compare does."""
        return _compare(_jp2_compare, first, second)


class mailbox:
    """Mailbox names of IMAP: the modified UTF-7 of RFC 3501, section 5.1.3. A cell is a UTF-16 unit, 0 to 65535.

    A name has one spelling only: an accepted name, written again from its cells, is the same bytes, and two names with
    the same cells are the same name.

    >>> mailbox.read(b"R&-D") == [0x52, 0x26, 0x44]
    True
    >>> mailbox.write([0x65E5, 0x672C, 0x8A9E])
    b'&ZeVnLIqe-'
    >>> mailbox.read(b"R&ACY-D")
    Traceback (most recent call last):
    qalithonda.Refused: refused with 17: there is a needless shift, noticed at 4
    """

    @staticmethod
    def read(name: bytes) -> List[int]:
        """The cells of a name. Refused with 16, 1, 2, 3, 4, 7 or 17."""
        return _read(_mailbox_read, name)

    @staticmethod
    def write(cells: Iterable[int]) -> bytes:
        """The name of these cells. Refused with 16, or 10 for a cell above 65535."""
        return _write(_mailbox_write, cells)

    @staticmethod
    def steps(name: bytes) -> Steps:
        """Steps through a name, one cell at a time, each with where its bytes begin and end."""
        return Steps(name, _mailbox_start, _mailbox_step)

    @staticmethod
    def compare(first: bytes, second: bytes) -> Union[Same, Part]:
        """Whether two names read as the same cells, or where they part, as utf7.compare does."""
        return _compare(_mailbox_compare, first, second)


#: UTF-16 as it stands in an array, with no mark of its order.
_UTF16 = "utf-16-le" if sys.byteorder == "little" else "utf-16-be"


class subject:
    r"""Subject lines: words of RFC 2047, =?utf-7?Q? to ?=, of at most 75 characters, joined by CR, LF and a space. A cell is
    a UTF-16 unit, 0 to 65535.

    >>> subject.encode("Re: 日本語?")
    b'=?utf-7?Q?Re:_+ZeVnLIqe-=3F?='
    >>> subject.decode(b"=?utf-7?Q?a?=\r\n =?utf-7?Q?_=62?=")
    'a b'
    >>> subject.read(b"=?utf-7?Q??=")
    Traceback (most recent call last):
    qalithonda.Refused: refused with 21: no line of such words has the byte at 10 there, or ends there
    """

    @staticmethod
    def read(line: bytes) -> List[int]:
        """The cells of a line, however they are shared among its words. Refused with 16, 21, 1, 2, 3 or 4."""
        return _read(_subject_read, line)

    @staticmethod
    def write(cells: Iterable[int]) -> bytes:
        """The line of these cells: each word takes as many as fit, and parts no surrogate pair. Refused with 16, or 10 for a
        cell above 65535."""
        return _write(_subject_write, cells)

    @staticmethod
    def encode(text: str) -> bytes:
        """The line of a string. Refused with 16."""
        return subject.write(memoryview(text.encode(_UTF16, "surrogatepass")).cast("H"))

    @staticmethod
    def decode(line: bytes) -> str:
        """The string of a line, as read."""
        return array("H", subject.read(line)).tobytes().decode(_UTF16, "surrogatepass")


class Kind(enum.IntEnum):
    """What a page is read and written as."""

    UTF7_HEADER = 0
    UTF7_BODY = 1
    JP2 = 2


_T = TypeVar("_T")
_OPEN = {Kind.UTF7_HEADER: _utf7_header_open, Kind.UTF7_BODY: _utf7_body_open, Kind.JP2: _jp2_open}


class Page:
    """A letter that can be edited, undone, redone and saved, and kept in a file to go on with another day. It is for
    one thread at a time.

    >>> page = Page.open(Kind.UTF7_BODY, b"A+ImIDkQ.", 100, 100)
    >>> page.replace(1, 1, [0x3D])
    4
    >>> page.unchanged
    False
    >>> page.save()
    b'A=+A5E-.'
    >>> page.unchanged
    True
    """

    def __init__(self, kind: Kind, arrived: bytes, text_room: int, history_room: int) -> None:
        self._arrived = _bytes(arrived)
        self._lend(text_room, history_room)
        self._take(_OPEN[Kind(kind)](self._arrived, len(self._arrived), *self._buffers()))

    @classmethod
    def open(cls, kind: Kind, arrived: bytes, text_room: int, history_room: int) -> "Page":
        """Opens a page on the bytes of a letter as they arrived.

        text_room is the most cells that the text can grow to, history_room the words for steps: a step takes 3, and one
        for each cell that it removes or adds.

        Refused with 16, with the faults of reading, or with 9 if text_room is too small.
        """
        return cls(kind, arrived, text_room, history_room)

    @classmethod
    def read(cls, file: bytes, text_room: int, history_room: int) -> "Page":
        """Reads a page that was kept (`keep`): it goes on as it was then, undo and redo too. The rooms are those of
        `open`, and need not be as they were.

        Refused with 16, 18, 9 (text_room, or else history_room, is too small), 14 (also if the text was longer than
        text_room when it was opened or between two steps) or 15. Of a file that `keep` gave, only with 16, or for too
        little room.

        A file that was made in another way may say what no editing leads to. If it is accepted, the page is sound, but
        saving and keeping may be refused with 15 or 10.
        """
        file = _bytes(file)
        page = cls.__new__(cls)
        page._lend(text_room, history_room)
        # A file has two digits for each arrived byte.
        arrived = (_Byte * min(len(file) // 2, LIMIT))()
        count = page._take(_page_read(file, len(file), arrived, len(arrived), *page._buffers()))
        page._arrived = bytes(arrived[:count])
        return page

    def replace(self, place: int, count: int, cells: Iterable[int]) -> int:
        """Puts cells in the place of the count cells from place on, and gives the new length. Steps that could be
        redone are dropped, and the mark with them if it is among them.

        Refused with 16, 11, 10 (an index in cells), 9 (the new length) or 12.
        """
        cells = _words(cells)
        return self._take(
            _replace(self._numbers, _size(place), _size(count), cells, len(cells), *self._buffers())
        )

    def undo(self) -> int:
        """Takes the last standing step back, and gives the new length. Refused with 13."""
        return self._take(_undo(self._numbers, *self._buffers()))

    def redo(self) -> int:
        """Does the next undone step again, and gives the new length. Refused with 13."""
        return self._take(_redo(self._numbers, *self._buffers()))

    def save(self) -> bytes:
        """The letter's bytes: those that arrived if no step stands, otherwise the text written in the page's kind. The
        page counts as saved from then on (`unchanged`); bytes that are still to be written to a file, which may fail,
        are better saved by `save_with`."""
        return self.save_with(lambda letter: letter)

    def save_with(self, put: Callable[[bytes], _T]) -> _T:
        """Gives the letter's bytes to put, which writes them to where they belong, and gives what it gives. If put
        raises, the page stays as it was, and so does what was saved before. Put is not to change the page.

        >>> page = Page.open(Kind.UTF7_BODY, b"A+ImIDkQ.", 100, 100)
        >>> page.replace(1, 1, [0x3D])
        4
        >>> page.save_with(Path("/nowhere/letter").write_bytes)
        Traceback (most recent call last):
        FileNotFoundError: [Errno 2] No such file or directory: '/nowhere/letter'
        >>> page.unchanged
        False
        >>> page.save_with(Path("/dev/null").write_bytes)
        8
        >>> page.unchanged
        True
        """
        numbers = self._numbers
        lent = (numbers, *self._buffers(), self._arrived, len(self._arrived))
        given, edited = _saved(lambda out, room: _save(*lent, out, room), put)
        # If put has changed the page after all, the bytes are not those of the page any more.
        if self._numbers is numbers:
            self._numbers = edited.page
        return given

    def squeeze(self, steps: int) -> int:
        """Folds the oldest standing steps, so many of them, into one, which makes room in the history, and gives the
        words now used. The text stays as it is, and the later steps, undone ones too, follow unchanged; what was folded
        is then undone and redone at once. The new step takes 3 words, and one for each cell of the text as it was
        opened and of the text as it was after those steps.

        A mark (`saved`) at the end of the fold or later moves along, and one at 0 stays; one between is lost, since no
        step leads there any more.

        Refused with 11 (fewer than two steps, or more than stand) or 19.

        >>> page = Page.open(Kind.UTF7_BODY, b"Hi", 100, 100)
        >>> for cells in ([0x21], [0x3F], [0x21]):
        ...     length = page.replace(2, page.length - 2, cells)
        >>> page.used
        14
        >>> page.squeeze(2)
        13
        """
        # Where there is a gain, the new step is shorter than those that stand.
        work = (_Word * self.done)()
        return self._take(_squeeze(self._numbers, _size(steps), *self._buffers(), work, len(work)))

    def keep(self) -> bytes:
        """The page's file, to read it back another day (`read`): the whole page, with its steps, undone ones too, its
        mark and the bytes that arrived. It is the same bytes on every kind of machine, and one page has one file.
        Keeping changes nothing: it is not saving.

        >>> page = Page.open(Kind.UTF7_BODY, b"A+ImIDkQ.", 100, 100)
        >>> page.replace(1, 1, [0x3D])
        4
        >>> page = Page.read(page.keep(), 100, 100)
        >>> page.save()
        b'A=+A5E-.'
        >>> page.undo()
        4
        >>> page.save()
        b'A+ImIDkQ.'
        """
        lent = (self._numbers, *self._buffers(), self._arrived, len(self._arrived))
        return bytes(_filled(_Byte, lambda out, room: _page_keep(*lent, out, room)))

    @property
    def unchanged(self) -> bool:
        """Whether it is as it was saved last, or opened if it was not saved since. Steps that were undone and done
        again make no difference; the same cells put by another step do. Good to ask before a page is dropped."""
        asked = _unchanged(self._numbers, *self._buffers())
        _accepted(asked.answer)
        return asked.unchanged == 1

    def text(self) -> List[int]:
        """Its cells."""
        return self._text[: self.length]

    def history(self) -> List[int]:
        """The records of its steps, one after another: place, count removed, count added, the removed cells, the added
        cells. The first `done` words are of steps that stand, the others of steps that can be redone."""
        return self._history[: self.used]

    @property
    def kind(self) -> Kind:
        """What it is read and written as."""
        return Kind(self._numbers.kind)

    @property
    def arrived(self) -> bytes:
        """The bytes that it was opened on."""
        return self._arrived

    @property
    def opening(self) -> int:
        """How many cells it was opened with."""
        return self._numbers.opening

    @property
    def length(self) -> int:
        """How many cells it has."""
        return self._numbers.length

    @property
    def used(self) -> int:
        """How many words of history hold steps. There is one to redo if this is more than `done`."""
        return self._numbers.used

    @property
    def done(self) -> int:
        """How many words of history hold steps that stand. There is one to undo if this is not 0."""
        return self._numbers.done

    @property
    def saved(self) -> Optional[int]:
        """The mark: `done` when it was saved last, or 0 if it was only opened, moved along when steps before it are
        squeezed; None if a replacement dropped the steps that led there, or a squeeze folded them together with later
        ones. It is unchanged if this is what is done."""
        return _mark(self._numbers.saved)

    def _lend(self, text_room: int, history_room: int) -> None:
        self._text, self._history = _buffer(text_room), _buffer(history_room)
        self._numbers = _Page()

    def _buffers(self):
        return self._text, len(self._text), self._history, len(self._history)

    def _take(self, edited: _Edited) -> int:
        """A refused call gives the page back as it was."""
        self._numbers = edited.page
        return _accepted(edited.answer)


class Letter(NamedTuple):
    """A letter that a bench is opened on: what it is read and written as, its bytes as they arrived, and the most cells
    that its text can grow to."""

    kind: Kind
    arrived: bytes
    text_room: int


class Bench(NamedTuple):
    """One of two benches, as it stands."""

    kind: Kind  #: what its letter is read and written as
    arrived: bytes  #: the bytes that it was opened on
    text: List[int]  #: its cells
    opening: int  #: how many cells it was opened with
    standing: int  #: how many of its steps stand; there is one to undo if this is not 0
    #: the mark: `standing` when it was saved last, or 0 if it was only opened; None if a replacement dropped the steps
    #: that led there
    saved: Optional[int]


class Benches:
    """Two letters that are edited, undone, redone and saved each on its own bench, 0 or 1, with one history between
    them. What one bench does changes nothing of the other; only room is shared. They are for one thread at a time.

    A bench that is neither 0 nor 1 is refused with 20.

    >>> master, apprentice = Letter(Kind.UTF7_BODY, b"A+ImIDkQ.", 100), Letter(Kind.JP2, b"Hi", 100)
    >>> benches = Benches.open(master, apprentice, 100)
    >>> benches.replace(0, 1, 1, [0x3D]), benches.replace(1, 2, 0, [0x060021])
    (4, 3)
    >>> benches.undo(0), benches.replace(1, 3, 0, [0x060021])
    (4, 4)
    >>> benches.save(0), benches.save(1)
    (b'A+ImIDkQ.', b'Hi!!')
    """

    def __init__(self, first: Letter, second: Letter, history_room: int) -> None:
        kinds, arrived, rooms = zip(first, second)
        self._arrived = tuple(map(_bytes, arrived))
        self._texts, self._history = tuple(map(_buffer, rooms)), _buffer(history_room)
        lent = [lent for letter in self._arrived for lent in (letter, len(letter))]
        self._take(_benches_open(*map(Kind, kinds), *lent, *self._buffers()))

    @classmethod
    def open(cls, first: Letter, second: Letter, history_room: int) -> "Benches":
        """Opens both benches, the first letter on bench 0 and the second on bench 1.

        history_room are the words for steps of both: a step takes 4, and one for each cell that it removes or adds.

        Refused as Page.open of each is, the first letter's refusals before the second's.
        """
        return cls(first, second, history_room)

    def replace(self, bench: int, place: int, count: int, cells: Iterable[int]) -> int:
        """Puts cells in the place of the count cells from place on in the text of this bench, and gives its new length.
        Steps that this bench could redo are dropped, and its mark with them if it is among them; the other's stay.

        Refused with 16, 20, 11, 10 (an index in cells), 9 (the new length) or 12.
        """
        cells = _words(cells)
        numbers = map(_size, (bench, place, count))
        return self._take(_benches_replace(self._numbers, *numbers, cells, len(cells), *self._buffers()))

    def undo(self, bench: int) -> int:
        """Takes this bench's last standing step back, and gives its new length. Refused with 20 or 13."""
        return self._take(_benches_undo(self._numbers, _size(bench), *self._buffers()))

    def redo(self, bench: int) -> int:
        """Does this bench's next undone step again, and gives its new length. Refused with 20 or 13."""
        return self._take(_benches_redo(self._numbers, _size(bench), *self._buffers()))

    def save(self, bench: int) -> bytes:
        """The bytes of this bench's letter: those that arrived if none of its steps stands, otherwise its text written
        in its kind. The bench counts as saved from then on (`unchanged`); bytes that are still to be written to a file,
        which may fail, are better saved by `save_with`. Refused with 20."""
        return self.save_with(bench, lambda letter: letter)

    def save_with(self, bench: int, put: Callable[[bytes], _T]) -> _T:
        """Gives the bytes of this bench's letter to put, which writes them to where they belong, and gives what it
        gives. If put raises, the bench stays as it was, and so does what was saved before. Put is not to change the
        benches."""
        numbers = self._numbers
        # No bench has no arrived bytes.
        arrived = self._arrived[bench] if bench in (0, 1) else b""
        lent = (numbers, _size(bench), *self._buffers(), arrived, len(arrived))
        given, edited = _saved(lambda out, room: _benches_save(*lent, out, room), put)
        # If put has changed the benches after all, the bytes are not those of the letter any more.
        if self._numbers is numbers:
            self._numbers = edited.benches
        return given

    def unchanged(self, bench: int) -> bool:
        """Whether this bench is as it was saved last, or opened if it was not saved since. Steps that were undone and
        done again make no difference; the same cells put by another step do. Refused with 20."""
        asked = _benches_unchanged(self._numbers, _size(bench), *self._buffers())
        _accepted(asked.answer)
        return asked.unchanged == 1

    def both(self) -> Tuple[Bench, Bench]:
        """Both benches as they stand."""
        return self._bench(0, self._numbers.bench0), self._bench(1, self._numbers.bench1)

    def history(self) -> List[int]:
        """The records of the steps of both, one after another in the order in which they were accepted: bench, place,
        count removed, count added, the removed cells, the added cells."""
        return self._history[: self._numbers.used]

    def _bench(self, bench: int, numbers: _Bench) -> Bench:
        text = self._texts[bench][: numbers.length]
        kind, saved = Kind(numbers.kind), _mark(numbers.saved)
        return Bench(kind, self._arrived[bench], text, numbers.opening, numbers.standing, saved)

    def _buffers(self):
        return [lent for buffer in (*self._texts, self._history) for lent in (buffer, len(buffer))]

    def _take(self, edited: _BenchesEdited) -> int:
        """A refused call gives the benches back as they were."""
        self._numbers = edited.benches
        return _accepted(edited.answer)
