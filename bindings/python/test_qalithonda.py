"""Tests of the module: that each function is the right one, and what ctypes would get wrong."""

import ctypes
import doctest
import email.header
import os
import pickle
import random
import subprocess
import sys
import unittest
from pathlib import Path

import qalithonda
from qalithonda import LIMIT, Benches, Kind, Letter, Page, Part, Refusal, Refused, RefusedText, Same, Step, Text
from qalithonda import jp2, mailbox, subject, utf7

HERE = Path(__file__).resolve().parent
HEADER, BODY = utf7.Style.HEADER, utf7.Style.BODY
P2 = b"A+ImIDkQ."
P2_CELLS = [0x41, 0x2262, 0x391, 0x2E]
P9 = b'\x1b$B$"\x1b(B'
#: The file of the worked page.
KEPT = b"""form=1
kind=utf7b
opening=00004
length=00004
used=00005
done=00005
saved=00000
arrived=412B496D49446B512E
text=000000410000003D000003910000002E
history=000000010000000100000001000022620000003D
"""
SUBJECT = b"=?utf-7?Q?Re:_+ZeVnLIqe-=3F?="
NAME = b"~peter/mail/&U,BTFw-/&ZeVnLIqe-"


def load_tests(loader, tests, pattern):
    tests.addTests(doctest.DocTestSuite(qalithonda))
    tests.addTests(doctest.DocFileSuite("README.md", encoding="utf-8"))
    return tests


class Case(unittest.TestCase):
    def refused(self, number, place, call, *arguments):
        with self.assertRaises(Refused) as caught:
            call(*arguments)
        self.assertEqual((caught.exception.number, caught.exception.place), (number, place))


class Formats(Case):
    def test_utf7_reads(self):
        self.assertEqual(utf7.read(b""), [])
        self.assertEqual(utf7.read(P2), P2_CELLS)
        self.assertEqual(utf7.read(b"+-"), [0x2B])
        self.assertEqual(utf7.read(b"+AAA-"), [0])
        self.refused(1, 1, utf7.read, b"a\x80")
        self.refused(2, 1, utf7.read, b"+")
        self.refused(3, 0, utf7.read, b"~")
        self.refused(3, 1, utf7.read, b"a\0b")
        self.refused(4, 4, utf7.read, b"+AKN-")
        self.refused(4, 2, utf7.read, b"+A-")

    def test_utf7_writes_in_both_styles(self):
        self.assertEqual(utf7.write(BODY, P2_CELLS), b"A+ImIDkQ-.")
        self.assertEqual(utf7.write(BODY, [0x3D]), b"=")
        self.assertEqual(utf7.write(HEADER, [0x3D]), b"+AD0-")
        self.assertEqual(utf7.write(HEADER, []), b"")
        self.refused(10, 1, utf7.write, BODY, [0x41, 0x10000])
        with self.assertRaises(ValueError):
            utf7.write("neither", [])

    def test_jp2_reads(self):
        self.assertEqual(jp2.read(b""), [])
        self.assertEqual(jp2.read(b"a\0b"), [0x060061, 0x060000, 0x060062])
        self.assertEqual(jp2.read(P9), [0x572422])
        self.assertEqual(jp2.read(b"\x1b.A\n\x1bNA"), [0x06000A, 0x640041])
        self.refused(1, 1, jp2.read, b"\x1b\xff")
        self.refused(3, 3, jp2.read, b"\x1b$B ")
        self.refused(5, 3, jp2.read, b"\x1b$(B")
        self.refused(6, 6, jp2.read, b"\x1b.A\r\n\x1bNA")
        self.refused(7, 4, jp2.read, P9[:4])
        self.refused(8, 5, jp2.read, P9[:5])

    def test_jp2_plain_reads_as_jp2_reads(self):
        for text in (b"", b"a\0b", P9, b"\x1b.A\n\x1bNA", b"a" * 512):
            self.assertEqual(jp2.plain_read(text), jp2.read(text))
        self.refused(1, 1, jp2.plain_read, b"\x1b\xff")
        self.refused(3, 3, jp2.plain_read, b"\x1b$B ")
        self.refused(5, 3, jp2.plain_read, b"\x1b$(B")
        self.refused(6, 6, jp2.plain_read, b"\x1b.A\r\n\x1bNA")
        self.refused(7, 4, jp2.plain_read, P9[:4])
        self.refused(8, 5, jp2.plain_read, P9[:5])
        self.refused(16, 512, jp2.plain_read, b"a" * 513)

    def test_jp2_writes_and_counts(self):
        self.assertEqual(jp2.write([0x572422]), P9)
        self.assertEqual(jp2.write([0x952121]), b"\x1b$(C!!\x1b(B")
        self.refused(10, 1, jp2.write, [0x060041, 0x41])
        self.assertEqual(jp2.tally([]), [0] * 9)
        self.refused(10, 1, jp2.tally, [0x060041, 0x41])
        for index, number in enumerate(jp2.SETS):
            code = 0x41 if number in (6, 14, 100, 126) else 0x2422
            counts = [0] * 9
            counts[index] = 2
            self.assertEqual(jp2.tally([number << 16 | code] * 2), counts)

    def test_mailbox_reads(self):
        self.assertEqual(mailbox.read(b""), [])
        self.assertEqual(mailbox.read(NAME), [ord(character) for character in "~peter/mail/台北/日本語"])
        self.assertEqual(mailbox.read(b"&-"), [0x26])
        self.assertEqual(mailbox.read(b"&AKM-&-"), [0xA3, 0x26])
        self.assertEqual(mailbox.read(b"&AAA-"), [0])
        self.assertEqual(mailbox.read(b"+-"), [0x2B, 0x2D])
        self.refused(1, 1, mailbox.read, b"a\x80")
        self.refused(2, 1, mailbox.read, b"&")
        self.refused(3, 4, mailbox.read, b"&AKN!")
        self.refused(3, 1, mailbox.read, b"a\0b")
        self.refused(4, 4, mailbox.read, b"&AKN-")
        self.refused(7, 4, mailbox.read, b"&AKN")
        self.refused(17, 3, mailbox.read, b"&ACY-")
        self.refused(17, 6, mailbox.read, b"&AKM-&AKM-")
        self.refused(17, 2, mailbox.read, b"&A-")

    def test_mailbox_writes(self):
        self.assertEqual(mailbox.write([]), b"")
        self.assertEqual(mailbox.write(mailbox.read(NAME)), NAME)
        self.assertEqual(mailbox.write(P2_CELLS), b"A&ImIDkQ-.")
        self.assertEqual(mailbox.write([0x26, 0x2B, 0x09]), b"&-+&AAk-")
        self.refused(10, 1, mailbox.write, [0x41, 0x10000])

    def test_subject_reads(self):
        self.assertEqual(subject.read(b""), [])
        self.assertEqual(subject.decode(SUBJECT), "Re: 日本語?")
        self.assertEqual(subject.read(b"=?utf-7?Q?+2D0-?=\r\n =?utf-7?Q?+3gk-?="), [0xD83D, 0xDE09])
        self.assertEqual(subject.decode(b"=?utf-7?Q?=61=2BAK=4D?="), "a£")
        self.refused(1, 11, subject.read, b"=?utf-7?Q?a=80?=")
        self.refused(2, 11, subject.read, b"=?utf-7?Q?+?=")
        self.refused(3, 11, subject.read, b"=?utf-7?Q?a=7E?=")
        self.refused(4, 14, subject.read, b"=?utf-7?Q?+AKN?=")
        self.refused(21, 10, subject.read, b"=?utf-7?Q??=")
        self.refused(21, 11, subject.read, b"=?utf-7?Q?a\x80?=")
        self.refused(21, 12, subject.read, b"=?utf-7?Q?a=a8?=")
        self.refused(21, 73, subject.read, b"=?utf-7?Q?" + b"a" * 64 + b"?=")
        self.refused(21, 2, subject.read, b"=?UTF-7?Q?a?=")
        self.refused(21, 11, subject.read, b"=?utf-7?Q?+")

    def test_subject_writes(self):
        self.assertEqual(subject.write([]), b"")
        self.assertEqual(subject.encode("Re: 日本語?"), SUBJECT)
        self.assertEqual(subject.encode("a b?\r\n\t"), b"=?utf-7?Q?a_b=3F=0D=0A=09?=")
        two = b"=?utf-7?Q?" + b"a" * 58 + b"?=\r\n =?utf-7?Q?+2D3eCQ-?="
        self.assertEqual(subject.encode("a" * 58 + "\U0001F609"), two)
        self.refused(10, 1, subject.write, [0x41, 0x10000])

    def test_python_reads_subjects_as_the_same_text(self):
        for text in ("Re: 日本語?", "a" * 200, "\U0001F609" * 60, "".join(map(chr, range(1, 0x300))), "+-=?_ \t"):
            line = subject.encode(text)
            self.assertTrue(all(len(word) <= 75 for word in line.split(b"\r\n ")))
            parts = email.header.decode_header(line.decode("ascii"))
            self.assertEqual("".join(part.decode(name) for part, name in parts), text)
            self.assertEqual(subject.decode(line), text)

    def test_the_limit_is_within(self):
        self.assertEqual(len(utf7.read(b"A" * LIMIT)), LIMIT)
        self.assertEqual(len(jp2.write([0x060041] * LIMIT)), LIMIT)
        over = LIMIT + 1
        self.refused(16, LIMIT, utf7.read, b"A" * over)
        self.refused(16, LIMIT, jp2.read, b"A" * over)
        self.refused(16, LIMIT, utf7.write, HEADER, [0x41] * over)
        self.refused(16, LIMIT, utf7.write, BODY, [0x41] * over)
        self.refused(16, LIMIT, jp2.write, [0x060041] * over)
        self.refused(16, LIMIT, jp2.tally, [0x060041] * over)
        self.assertEqual(len(mailbox.read(b"A" * LIMIT)), LIMIT)
        self.refused(16, LIMIT, mailbox.read, b"A" * over)
        self.refused(16, LIMIT, mailbox.write, [0x41] * over)
        self.refused(16, LIMIT, subject.read, b"A" * over)
        self.refused(16, LIMIT, subject.write, [0x41] * over)

    def test_bytes_of_any_type_are_read(self):
        for text in (bytearray(P2), memoryview(P2)):
            self.assertEqual(utf7.read(text), P2_CELLS)
        for text in ("A", 5, [65], None):
            with self.assertRaises(TypeError):
                utf7.read(text)

    def test_cells_of_any_iterable_are_written(self):
        for cells in (tuple(P2_CELLS), iter(P2_CELLS), (cell for cell in P2_CELLS)):
            self.assertEqual(utf7.write(BODY, cells), b"A+ImIDkQ-.")
        self.assertEqual(utf7.write(BODY, b"ABCD"), b"ABCD")
        for cells in ("A", [0.5], 5, None):
            with self.assertRaises(TypeError):
                utf7.write(BODY, cells)

    def test_no_cell_is_cut_down(self):
        for cell in (-1, 2**32, 2**32 + 0x41, 2**64 + 0x41):
            for call in (lambda cells: utf7.write(BODY, cells), jp2.write, jp2.tally, mailbox.write, subject.write):
                with self.assertRaises(OverflowError):
                    call([cell])
        self.refused(10, 0, utf7.write, BODY, [2**32 - 1])


class Stepping(Case):
    UTF7_TEXTS = [b"", P2, b"+ZeVnLIqe-", b"+", b"+AKN-", b"A+ImIDkQ~", b"\x80"]
    JP2_TEXTS = [P9, P9[:5], b"\x1b.A\x1bNA\r\n\x1bNA", b"\x1b$("]
    NAMES = [NAME, b"A&ImIDkQ-&-.", b"&AKM-&AKM-", b"&ACY-", b"&AKN", b"&"]

    def outcome(self, call, *arguments):
        try:
            return call(*arguments)
        except Refused as refused:
            return refused.number, refused.place

    def cells(self, steps):
        return [step.cell for step in steps]

    def spans(self, steps):
        return [(step.begin, step.end) for step in steps]

    def test_cells_and_answers_are_those_of_reading(self):
        for form in (utf7, jp2, mailbox):
            for text in self.UTF7_TEXTS + self.JP2_TEXTS + self.NAMES:
                read = self.outcome(form.read, text)
                count = len(read) if isinstance(read, list) else read
                self.assertEqual(self.outcome(form.steps(text).answer), count)
                if isinstance(read, list):
                    self.assertEqual(self.cells(form.steps(text)), read)

    def test_cells_before_a_fault_are_handed_out(self):
        steps = utf7.steps(b"A+ImIDkX-")
        self.assertEqual(self.cells(steps), [0x41, 0x2262, 0x391])
        self.refused(4, 8, steps.answer)
        self.assertEqual(self.cells(jp2.steps(b'a\x1b$B$"$')), [0x060061, 0x572422])
        steps = mailbox.steps(b"a&AKMAJg-")
        self.assertEqual(self.cells(steps), [0x61, 0xA3])
        self.refused(17, 7, steps.answer)

    def test_each_cell_has_its_bytes(self):
        self.assertEqual(list(utf7.steps(P2)), [(0x41, 0, 1), (0x2262, 2, 5), (0x391, 4, 8), (0x2E, 8, 9)])
        self.assertEqual(next(utf7.steps(P2)), Step(cell=0x41, begin=0, end=1))
        self.assertEqual(self.spans(utf7.steps(b"a+-b+AKM-1")), [(0, 1), (1, 3), (3, 4), (5, 8), (9, 10)])
        two_runs = [(1, 4), (3, 7), (6, 9), (9, 12), (11, 15), (14, 17)]
        self.assertEqual(self.spans(utf7.steps(b"+ZeVnLIqeZeVnLIqe-")), two_runs)
        self.assertEqual(self.spans(mailbox.steps(b"a&-&AKM-")), [(0, 1), (1, 3), (4, 7)])
        # A pair, ESC N and a byte, a pair, a byte; no designation.
        text = b'\x1b$B$"\x1b.A\x1bNA$$\x1b(Bb'
        self.assertEqual(self.spans(jp2.steps(text)), [(3, 5), (8, 11), (11, 13), (16, 17)])

    def test_no_bytes_go_back_or_past_the_end(self):
        for form in (utf7, jp2, mailbox):
            for text in self.UTF7_TEXTS + self.JP2_TEXTS + self.NAMES:
                spans = self.spans(form.steps(text))
                self.assertTrue(all(begin < end <= len(text) for begin, end in spans))
                for column in zip(*spans):
                    self.assertEqual(sorted(column), list(column))

    def test_the_answer_can_be_asked_at_any_time(self):
        for steps, cells in (
            (utf7.steps(P2), P2_CELLS),
            (jp2.steps(b'a\x1b$B$"\x1b(B'), [0x060061, 0x572422]),
            (mailbox.steps(b"A&ImIDkQ-."), P2_CELLS),
        ):
            for cell in cells:
                self.assertEqual(steps.answer(), len(cells))
                self.assertEqual(next(steps).cell, cell)
            for _ in range(2):
                self.assertIsNone(next(steps, None))
                self.assertEqual(steps.answer(), len(cells))

    def test_a_text_changed_meanwhile_is_not_seen(self):
        text = bytearray(P2)
        steps = utf7.steps(text)
        text[:] = b"\xff"
        self.assertEqual(self.cells(steps), P2_CELLS)

    def test_a_text_over_the_limit_is_refused_at_once(self):
        for form in (utf7, jp2, mailbox):
            steps = form.steps(b"A" * (LIMIT + 1))
            self.assertEqual(list(steps), [])
            self.refused(16, LIMIT, steps.answer)


class Comparing(Case):
    def test_texts_of_the_same_cells_are_the_same(self):
        self.assertEqual(utf7.compare(b"", b""), Same(0))
        self.assertEqual(utf7.compare(P2, b"A+ImI-+A5E-."), Same(4))
        self.assertEqual(utf7.compare(b"a+AKM", b"a+AKM-"), Same(2))
        self.assertEqual(jp2.compare(b"a", b"\x1b(Ba"), Same(1))
        self.assertEqual(mailbox.compare(NAME, bytearray(NAME)), Same(len(mailbox.read(NAME))))

    def test_texts_part_where_a_cell_begins_or_a_text_ends(self):
        self.assertEqual(utf7.compare(P2, b"A+ImI-+A5A-."), Part(2, 4, 7))
        self.assertEqual(utf7.compare(b"a+AGI-", b"abc"), Part(2, 6, 2))
        self.assertEqual(utf7.compare(b"abc", b"a+AGI-"), Part(2, 2, 6))
        self.assertEqual(jp2.compare(b"\x1b(Ba", b"b"), Part(0, 3, 0))
        self.assertEqual(mailbox.compare(b"a&-b", b"a&-&AKM-"), Part(2, 3, 4))

    def test_a_refusal_of_the_first_comes_before_one_of_the_second(self):
        def refused(text, number, place, compare, *texts):
            with self.assertRaises(RefusedText) as caught:
                compare(*texts)
            told = caught.exception
            self.assertEqual((told.text, told.number, told.place), (text, number, place))

        refused(Text.FIRST, 3, 2, utf7.compare, b"ax~", b"by")
        refused(Text.SECOND, 3, 2, utf7.compare, b"ax", b"by~")
        refused(Text.FIRST, 3, 3, utf7.compare, b"abc~", b"~")
        refused(Text.SECOND, 7, 2, jp2.compare, b"a", b"b\x1b")
        refused(Text.SECOND, 17, 3, mailbox.compare, b"ab", b"b&A-")
        long = b"a" * (LIMIT + 1)
        refused(Text.FIRST, 16, LIMIT, utf7.compare, long, b"~")
        refused(Text.SECOND, 16, LIMIT, utf7.compare, b"b", long)
        refused(Text.FIRST, 3, 0, utf7.compare, b"~", long)


class Pages(Case):
    def numbers(self, page):
        return page.opening, page.length, page.used, page.done

    def test_the_worked_page(self):
        page = Page.open(Kind.UTF7_BODY, P2, 5, 6)
        self.assertEqual((page.kind, page.arrived), (Kind.UTF7_BODY, P2))
        self.assertEqual((page.text(), page.history(), self.numbers(page)), (P2_CELLS, [], (4, 4, 0, 0)))
        self.assertEqual((page.saved, page.unchanged), (0, True))
        self.assertEqual(page.replace(1, 1, [0x3D]), 4)
        self.assertEqual((page.text(), page.history()), ([0x41, 0x3D, 0x391, 0x2E], [1, 1, 1, 0x2262, 0x3D]))
        self.assertEqual(self.numbers(page), (4, 4, 5, 5))
        self.assertEqual((page.saved, page.unchanged), (0, False))
        self.assertEqual(page.save(), b"A=+A5E-.")
        self.assertEqual((page.saved, page.unchanged), (5, True))
        self.assertEqual(page.undo(), 4)
        self.assertEqual(self.numbers(page), (4, 4, 5, 0))
        self.assertEqual((page.saved, page.unchanged), (5, False))
        self.assertEqual(page.save(), P2)
        self.assertEqual((page.saved, page.unchanged), (0, True))
        self.refused(13, 0, page.undo)
        self.assertEqual(page.redo(), 4)
        self.assertEqual(page.text(), [0x41, 0x3D, 0x391, 0x2E])
        self.refused(13, 0, page.redo)

    def test_a_replacement_drops_a_mark_that_could_be_redone(self):
        page = Page.open(Kind.UTF7_BODY, P2, 5, 9)
        page.replace(1, 1, [0x3D])
        page.save()
        page.undo()
        page.redo()
        self.assertTrue(page.unchanged)
        page.undo()
        page.replace(1, 1, [0x3D])
        self.assertEqual((page.saved, page.unchanged), (None, False))
        page.save()
        self.assertEqual((page.saved, page.unchanged), (5, True))

    def test_bytes_that_were_not_put_do_not_count_as_saved(self):
        page = Page.open(Kind.UTF7_BODY, P2, 5, 20)
        page.replace(1, 1, [0x3D])
        with self.assertRaises(ZeroDivisionError):
            page.save_with(lambda letter: 1 // 0)
        self.assertEqual((page.saved, page.unchanged), (0, False))
        put = []
        self.assertIsNone(page.save_with(put.append))
        self.assertEqual((page.saved, page.unchanged, put), (5, True, [b"A=+A5E-."]))
        # What is put is not to change the page; if it does, the page is still sound.
        page.save_with(lambda letter: page.replace(0, 1, []))
        self.assertEqual((page.saved, page.unchanged, page.length), (5, False, 3))
        page.undo()
        self.assertTrue(page.unchanged)

    def three_steps(self):
        """'!' after "Hi", then '?' and '!' in its place; saved before the last of these steps."""
        page = Page.open(Kind.UTF7_BODY, b"Hi", 9, 20)
        page.replace(2, 0, [0x21])
        page.replace(2, 1, [0x3F])
        page.save()
        page.replace(2, 1, [0x21])
        self.assertEqual((self.numbers(page), page.saved), ((2, 3, 14, 14), 9))
        return page

    def test_the_oldest_steps_are_folded_into_one(self):
        page = self.three_steps()
        page.undo()
        self.assertEqual(page.squeeze(2), 13)
        self.assertEqual((self.numbers(page), page.text()), ((2, 3, 13, 8), [0x48, 0x69, 0x3F]))
        self.assertEqual(page.history(), [0, 2, 3, 0x48, 0x69, 0x48, 0x69, 0x3F, 2, 1, 1, 0x3F, 0x21])
        self.assertEqual((page.undo(), page.text()), (2, [0x48, 0x69]))
        self.refused(13, 0, page.undo)
        self.assertEqual((page.redo(), page.redo(), page.text()), (3, 3, [0x48, 0x69, 0x21]))
        self.refused(13, 0, page.redo)

    def test_a_mark_within_a_fold_is_lost_and_a_later_one_moves_along(self):
        page = self.three_steps()
        self.assertEqual((page.squeeze(3), page.saved, page.unchanged), (8, None, False))
        page = self.three_steps()
        self.assertEqual((page.squeeze(2), page.saved, page.unchanged), (13, 8, False))
        page.undo()
        self.assertTrue(page.unchanged)
        page.undo()
        page.save()
        page.redo()
        page.redo()
        page.replace(0, 3, [])
        self.assertEqual((page.squeeze(3), page.saved, page.history()), (5, 0, [0, 2, 0, 0x48, 0x69]))

    def test_squeeze_is_refused_and_changes_nothing(self):
        page = Page.open(Kind.UTF7_BODY, P2, 5, 20)
        page.replace(0, 1, [])
        page.replace(0, 0, [])
        page.replace(0, 0, [])
        for steps in (0, 1, 4, 2**64 - 1):
            self.refused(11, 0, page.squeeze, steps)
        for steps in (-1, 2**64):
            with self.assertRaises(OverflowError):
                page.squeeze(steps)
        # Ten words would become ten.
        self.refused(19, 0, page.squeeze, 3)
        self.assertEqual((self.numbers(page), page.history()), ((4, 3, 10, 10), [0, 1, 0, 0x41, 0, 0, 0, 0, 0, 0]))
        page.replace(0, 1, [])
        self.assertEqual(page.squeeze(4), 9)

    def test_a_page_is_kept_and_goes_on(self):
        page = Page.open(Kind.UTF7_BODY, P2, 5, 6)
        page.replace(1, 1, [0x3D])
        self.assertEqual((page.keep(), page.saved, page.unchanged), (KEPT, 0, False))
        page = Page.read(KEPT, 5, 6)
        self.assertEqual((page.kind, page.arrived, page.saved), (Kind.UTF7_BODY, P2, 0))
        self.assertEqual((page.text(), page.history()), ([0x41, 0x3D, 0x391, 0x2E], [1, 1, 1, 0x2262, 0x3D]))
        self.assertEqual((self.numbers(page), page.unchanged, page.keep()), ((4, 4, 5, 5), False, KEPT))
        page.save()
        page.undo()
        # The steps that can be redone and the mark are kept too.
        page = Page.read(bytearray(page.keep()), 5, 6)
        self.assertEqual((self.numbers(page), page.saved, page.text()), ((4, 4, 5, 0), 5, P2_CELLS))
        self.assertEqual((page.redo(), page.unchanged), (4, True))
        page.undo()
        page.replace(0, 1, [])
        page = Page.read(page.keep(), 5, 6)
        self.assertEqual((page.saved, page.unchanged), (None, False))

    def test_a_page_of_each_kind_is_kept(self):
        for kind, arrived in ((Kind.UTF7_HEADER, P2), (Kind.UTF7_BODY, b""), (Kind.JP2, P9)):
            page = Page.open(kind, arrived, 9, 9)
            read = Page.read(page.keep(), 9, 9)
            self.assertEqual((read.kind, read.arrived, read.text()), (kind, arrived, page.text()))
            self.assertEqual((self.numbers(read), read.saved), (self.numbers(page), 0))

    def test_a_kept_page_is_read_into_other_rooms(self):
        page = Page.read(KEPT, LIMIT, LIMIT)
        self.assertEqual((page.replace(0, 0, [0x41]), page.undo()), (5, 4))
        file = page.keep()
        self.refused(14, 0, Page.read, file, 4, 9)
        self.assertEqual(self.numbers(Page.read(file, 5, 9)), (4, 4, 9, 5))
        self.refused(9, 4, Page.read, file, 3, 8)
        self.refused(9, 9, Page.read, file, 5, 8)
        for room in (LIMIT + 1, 2**64 - 1):
            self.refused(16, LIMIT, Page.read, file, room, 9)
            self.refused(16, LIMIT, Page.read, b"", 9, room)
        for room in (-1, 2**64):
            with self.assertRaises(OverflowError):
                Page.read(file, room, 9)

    def test_a_long_page_is_kept_in_form_2(self):
        for length, start, rest in ((65536, b"form=1\n", 103), (65537, b"form=2\n", 113), (LIMIT, b"form=2\n", 113)):
            file = Page.open(Kind.UTF7_BODY, b"A" * length, LIMIT, LIMIT).keep()
            self.assertEqual((file[:7], len(file)), (start, 10 * length + rest))
            self.assertEqual(Page.read(file, LIMIT, 0).arrived, b"A" * length)

    def test_what_is_no_page_file_is_refused(self):
        for end in range(len(KEPT)):
            self.refused(18, end, Page.read, KEPT[:end], 9, 9)
        self.refused(18, len(KEPT), Page.read, KEPT + b"\n", 9, 9)
        changes = (
            (b"form=1", b"form=3", 5),
            (b"form=1", b"form=2", 31),
            (b"kind=utf7b", b"kind=utf7x", 9),
            (b"opening=00004", b"opening=65537", 12),
            (b"length=00004", b"length=4", 8),
            (b"saved=00000", b"saved=never", 7),
            (b"arrived=412B", b"arrived=412b", 11),
            (b"arrived=41", b"arrived=41 ", 10),
            (b"000003910000002E\n", b"00000391\n", 8),
        )
        for old, new, at in changes:
            self.refused(18, KEPT.index(old) + at, Page.read, KEPT.replace(old, new, 1), 9, 9)

    def test_a_page_file_is_judged(self):
        self.refused(14, 0, Page.read, KEPT.replace(b"done=00005", b"done=00004"), 9, 9)
        self.refused(14, 0, Page.read, KEPT.replace(b"saved=00000", b"saved=00001"), 9, 9)
        self.refused(15, 0, Page.read, KEPT.replace(b"412B496D49446B512E", b"41"), 9, 9)
        # With a step standing the text is not judged. Undone, it is not what the arrived bytes read as.
        page = Page.read(KEPT.replace(b"text=00000041", b"text=00000042"), 9, 9)
        self.assertEqual(page.undo(), 4)
        self.refused(15, 0, page.save)
        self.refused(15, 0, page.keep)

    def test_four_words_of_history(self):
        page = Page.open(Kind.UTF7_BODY, P2, 5, 4)
        self.refused(12, 5, page.replace, 1, 1, [0x3D])
        self.assertEqual((page.text(), self.numbers(page)), (P2_CELLS, (4, 4, 0, 0)))

    def test_kinds_read_and_write_in_their_own_way(self):
        page = Page.open(Kind.UTF7_HEADER, P2, 5, 6)
        page.replace(1, 1, [0x3D])
        self.assertEqual(page.save(), b"A+AD0DkQ-.")
        page = Page.open(Kind.JP2, P2, 20, 20)
        page.replace(1, 7, [0x572422])
        self.assertEqual(page.save(), b'A\x1b$B$"\x1b(B.')
        with self.assertRaises(ValueError):
            Page.open(3, P2, 9, 9)

    def test_open_is_refused(self):
        self.refused(4, 4, Page.open, Kind.UTF7_BODY, b"+AKN-", 9, 9)
        self.refused(8, 5, Page.open, Kind.JP2, P9[:5], 9, 9)
        self.refused(9, 4, Page.open, Kind.UTF7_BODY, P2, 3, 9)
        self.assertEqual(Page.open(Kind.UTF7_BODY, b"", 0, 0).text(), [])
        self.assertEqual(Page.open(Kind.JP2, b"A" * LIMIT, LIMIT, LIMIT).length, LIMIT)
        self.refused(16, LIMIT, Page.open, Kind.JP2, b"A" * (LIMIT + 1), LIMIT, LIMIT)

    def test_rooms_over_the_limit_are_refused_and_not_allocated(self):
        for room in (LIMIT + 1, 2**64 - 1):
            self.refused(16, LIMIT, Page.open, Kind.JP2, P2, room, 9)
            self.refused(16, LIMIT, Page.open, Kind.JP2, P2, 9, room)

    def test_replace_is_refused_and_changes_nothing(self):
        page = Page.open(Kind.UTF7_BODY, P2, 5, 9)
        self.refused(11, 4, page.replace, 5, 0, [])
        self.refused(11, 4, page.replace, 2**64 - 1, 2**64 - 1, [])
        self.refused(10, 1, page.replace, 0, 0, [0x41, 0x10000])
        self.refused(9, 6, page.replace, 0, 0, [0x41, 0x42])
        self.refused(12, 11, page.replace, 0, 4, [0x41] * 4)
        self.refused(16, LIMIT, page.replace, 0, 0, [0x41] * (LIMIT + 1))
        self.assertEqual((page.text(), self.numbers(page)), (P2_CELLS, (4, 4, 0, 0)))

    def test_no_place_is_cut_down(self):
        page = Page.open(Kind.UTF7_BODY, P2, 5, 9)
        for number in (-1, 2**64, 2**64 + 1):
            for arguments in ((number, 0), (0, number)):
                with self.assertRaises(OverflowError):
                    page.replace(*arguments, [])
                with self.assertRaises(OverflowError):
                    Page.open(Kind.JP2, P2, *arguments)
        with self.assertRaises(TypeError):
            page.replace(1.0, 0, [])
        self.assertEqual(self.numbers(page), (4, 4, 0, 0))

    def test_the_arrived_bytes_are_kept(self):
        arrived = bytearray(P2)
        page = Page.open(Kind.UTF7_BODY, arrived, 5, 9)
        arrived[:] = b"\xff"
        self.assertEqual((page.arrived, page.save()), (P2, P2))

    def test_seeded_calls_agree_with_a_list_of_texts(self):
        units, cells = [0x41, 0x3D, 0x2262, 0xFFFF], [0x060041, 0x06000D, 0x06000A, 0x572422, 0x640041]
        rng = random.Random(2152)
        for _ in range(20):
            self.follow(Kind.UTF7_HEADER, utf7.read, units, rng)
            self.follow(Kind.UTF7_BODY, utf7.read, units, rng)
            self.follow(Kind.JP2, jp2.read, cells, rng)

    def follow(self, kind, read, cells, rng):
        """Every text so far is kept, with the words of the step that led to each; undo and redo go to and fro between
        them, a squeeze forgets those that it folds, and one of them may be the saved one. Kept and read back, nothing
        is changed."""
        page = Page.open(kind, P2, 12, 60)
        texts, words, now, saved = [page.text()], [0], 0, 0
        for _ in range(100):
            call = rng.choice(("undo", "redo", "save", "keep", "squeeze", "replace", "replace", "replace"))
            if call == "replace":
                place, count, added = rng.randrange(14), rng.randrange(4), rng.choices(cells, k=rng.randrange(4))
                try:
                    page.replace(place, count, added)
                except Refused:
                    continue
                text = texts[now]
                texts[now + 1 :] = [text[:place] + added + text[place + count :]]
                words[now + 1 :] = [3 + count + len(added)]
                saved = None if saved is not None and saved > now else saved
                now += 1
            elif call == "save":
                self.assertEqual(read(page.save()), texts[now])
                saved = now
            elif call == "keep":
                file = page.keep()
                page = Page.read(file, 12, 60)
                self.assertEqual(page.keep(), file)
            elif call == "squeeze":
                steps = rng.randrange(7)
                if not 2 <= steps <= now:
                    self.refused(11, 0, page.squeeze, steps)
                elif sum(words[: steps + 1]) <= 3 + len(texts[0]) + len(texts[steps]):
                    self.refused(19, 0, page.squeeze, steps)
                else:
                    words[1 : steps + 1] = [3 + len(texts[0]) + len(texts[steps])]
                    self.assertEqual(page.squeeze(steps), sum(words))
                    del texts[1:steps]
                    now -= steps - 1
                    if saved:
                        saved = saved - (steps - 1) if saved >= steps else None
            elif now == (0 if call == "undo" else len(texts) - 1):
                self.refused(13, 0, getattr(page, call))
            else:
                getattr(page, call)()
                now += -1 if call == "undo" else 1
            self.assertEqual(page.text(), texts[now])
            self.assertEqual((page.used, page.done), (sum(words), sum(words[: now + 1])))
            self.assertEqual((page.unchanged, page.saved is None), (saved == now, saved is None))


class TwoBenches(Case):
    def opened(self, history_room):
        """P2 on bench 0 and "Hi" on bench 1, with room for five cells each."""
        return Benches.open(Letter(Kind.UTF7_BODY, P2, 5), Letter(Kind.JP2, b"Hi", 5), history_room)

    def numbers(self, benches):
        """Opening, length and standing steps of each."""
        return [(bench.opening, len(bench.text), bench.standing) for bench in benches.both()]

    def saved(self, benches):
        return [bench.saved for bench in benches.both()]

    def test_one_goes_on_while_the_other_undoes_to_the_bottom(self):
        benches = self.opened(30)
        first, second = benches.both()
        self.assertEqual((first.kind, first.arrived, first.text), (Kind.UTF7_BODY, P2, P2_CELLS))
        self.assertEqual((second.kind, second.arrived, second.text), (Kind.JP2, b"Hi", [0x060048, 0x060069]))
        self.assertEqual((self.numbers(benches), benches.history()), ([(4, 4, 0), (2, 2, 0)], []))
        self.assertEqual((benches.unchanged(0), benches.unchanged(1)), (True, True))

        calls = (0, 1, 1, [0x3D]), (1, 2, 0, [0x060021]), (0, 4, 0, [0x21])
        self.assertEqual([benches.replace(*call) for call in calls], [4, 3, 5])
        records = [0, 1, 1, 1, 0x2262, 0x3D, 1, 2, 0, 1, 0x060021, 0, 4, 0, 1, 0x21]
        self.assertEqual((self.numbers(benches), benches.history()), ([(4, 5, 2), (2, 3, 1)], records))

        # Bench 0 to the bottom, bench 1 one step on: the undone steps stay where they are.
        self.assertEqual((benches.undo(0), benches.undo(0)), (4, 4))
        self.refused(13, 0, benches.undo, 0)
        self.assertEqual(benches.replace(1, 3, 0, [0x060021]), 4)
        self.assertEqual(benches.history(), records + [1, 3, 0, 1, 0x060021])
        self.assertEqual((self.numbers(benches), benches.both()[0].text), ([(4, 4, 0), (2, 4, 2)], P2_CELLS))
        self.assertEqual((benches.unchanged(0), benches.unchanged(1)), (True, False))

        # Bench 0 does one again, and replaces: its other undone step is dropped from between those of bench 1.
        self.assertEqual((benches.redo(0), benches.replace(0, 0, 1, [0x42])), (4, 4))
        left = records[:11] + [1, 3, 0, 1, 0x060021, 0, 0, 1, 1, 0x41, 0x42]
        self.assertEqual((self.numbers(benches), benches.history()), ([(4, 4, 2), (2, 4, 2)], left))
        self.assertEqual((benches.save(0), benches.save(1), self.saved(benches)), (b"B=+A5E-.", b"Hi!!", [2, 2]))

    def test_each_bench_has_its_own_mark(self):
        benches = self.opened(30)
        benches.replace(0, 1, 1, [0x3D])
        self.assertEqual((benches.save(1), self.saved(benches), benches.unchanged(0)), (b"Hi", [0, 0], False))
        self.assertEqual((benches.save(0), self.saved(benches), benches.unchanged(0)), (b"A=+A5E-.", [1, 0], True))
        benches.replace(1, 0, 1, [])
        self.assertEqual((benches.unchanged(0), benches.unchanged(1)), (True, False))
        benches.undo(0)
        benches.replace(0, 0, 0, [])
        self.assertEqual((self.saved(benches), benches.unchanged(0)), ([None, 0], False))

    def test_bytes_that_were_not_put_do_not_count_as_saved(self):
        benches = self.opened(30)
        benches.replace(0, 1, 1, [0x3D])
        with self.assertRaises(ZeroDivisionError):
            benches.save_with(0, lambda letter: 1 // 0)
        self.assertFalse(benches.unchanged(0))
        put = []
        self.assertIsNone(benches.save_with(0, put.append))
        self.assertEqual((benches.unchanged(0), put), (True, [b"A=+A5E-."]))
        # What is put is not to change the benches; if it does, they are still sound.
        benches.save_with(0, lambda letter: benches.replace(0, 0, 1, []))
        self.assertEqual((self.saved(benches), benches.unchanged(0)), ([1, 0], False))

    def test_room_is_all_that_they_share(self):
        benches = self.opened(11)
        benches.replace(0, 1, 1, [0x3D])
        benches.replace(1, 2, 0, [0x060021])
        self.refused(12, 16, benches.replace, 1, 3, 0, [0x060021])
        # What the other could redo stays, and takes its room; what the caller could redo is dropped.
        benches.undo(0)
        self.refused(12, 16, benches.replace, 1, 3, 0, [0x060021])
        self.refused(9, 6, benches.replace, 0, 0, 0, [0x41, 0x41])
        self.refused(12, 12, benches.replace, 0, 0, 2, [0x41])
        self.assertEqual(benches.replace(0, 0, 1, [0x42]), 4)
        self.assertEqual(benches.history(), [1, 2, 0, 1, 0x060021, 0, 0, 1, 1, 0x41, 0x42])

    def test_there_are_two_benches(self):
        benches = self.opened(30)
        for bench in (2, 2**64 - 1):
            self.refused(20, 0, benches.replace, bench, 9, 9, [])
            for call in (benches.undo, benches.redo, benches.save, benches.unchanged):
                self.refused(20, 0, call, bench)
            self.refused(16, LIMIT, benches.replace, bench, 0, 0, [0] * (LIMIT + 1))
        for bench in (-1, 2**64, 2**64 + 1):
            for call in (benches.undo, benches.redo, benches.save, benches.unchanged):
                with self.assertRaises(OverflowError):
                    call(bench)
            with self.assertRaises(OverflowError):
                benches.replace(bench, 0, 0, [])
        self.assertEqual((self.numbers(benches), benches.history()), ([(4, 4, 0), (2, 2, 0)], []))

    def test_open_is_refused_as_two_opens_would_be(self):
        good = Letter(Kind.UTF7_BODY, P2, 4)
        faults = (
            (Letter(Kind.UTF7_BODY, b"+AKN-", 9), 4, 4),
            (Letter(Kind.JP2, P9[:5], 9), 8, 5),
            (Letter(Kind.UTF7_HEADER, P2, 3), 9, 4),
            (Letter(Kind.UTF7_BODY, b"", LIMIT + 1), 16, LIMIT),
            (Letter(Kind.UTF7_BODY, b"", 2**64 - 1), 16, LIMIT),
        )
        for bad, number, place in faults:
            self.refused(number, place, Benches.open, bad, good, 9)
            self.refused(number, place, Benches.open, good, bad, 9)
            for other, _, _ in faults:
                self.refused(number, place, Benches.open, bad, other, 9)
        self.refused(16, LIMIT, Benches.open, good, good, LIMIT + 1)
        empty = Letter(Kind.JP2, b"", 0)
        self.assertEqual(self.numbers(Benches.open(empty, empty, 0)), [(0, 0, 0), (0, 0, 0)])
        with self.assertRaises(ValueError):
            Benches.open(good, Letter(3, P2, 9), 9)

    def test_seeded_calls_agree_with_a_page_for_each(self):
        rng = random.Random(1554)
        for _ in range(20):
            self.follow((Kind.UTF7_HEADER, Kind.UTF7_BODY), rng)
            self.follow((Kind.UTF7_BODY, Kind.JP2), rng)

    def follow(self, kinds, rng):
        """Each bench does what a page of its own, with room for all steps, does with the same calls; the words used are
        those of both pages, and one more for each step."""
        benches = Benches.open(*(Letter(kind, P2, 12) for kind in kinds), 80)
        pages = [Page.open(kind, P2, 12, 9999) for kind in kinds]
        for _ in range(100):
            bench = rng.randrange(2)
            call, arguments = rng.choice(("undo", "redo", "save", "replace", "replace", "replace")), ()
            if call == "replace":
                cells = [0x41, 0x3D, 0x2262, 0xFFFF, 0x10000]
                if kinds[bench] == Kind.JP2:
                    cells = [0x060041, 0x06000D, 0x06000A, 0x572422, 0x640041, 0x41]
                arguments = rng.randrange(14), rng.randrange(4), rng.choices(cells, k=rng.randrange(4))
            answer = self.outcome(getattr(benches, call), bench, *arguments)
            if isinstance(answer, tuple) and answer[0] == Refusal.HISTORY_FULL:
                self.assertGreater(answer[1], 80)
            else:
                self.assertEqual(answer, self.outcome(getattr(pages[bench], call), *arguments))
            for at, (page, here) in enumerate(zip(pages, benches.both())):
                self.assertEqual((here.text, benches.unchanged(at)), (page.text(), page.unchanged))
                self.assertEqual(here.saved is None, page.saved is None)
            words = sum(page.used for page in pages) + self.steps(benches.history())
            self.assertEqual(len(benches.history()), words)

    def outcome(self, call, *arguments):
        try:
            return call(*arguments)
        except Refused as refused:
            return refused.number, refused.place

    def steps(self, history):
        """How many steps the records are of."""
        count = at = 0
        while at < len(history):
            at += 4 + history[at + 2] + history[at + 3]
            count += 1
        return count


class Refusals(Case):
    def test_each_number_has_its_name_and_message(self):
        self.assertEqual([refusal.value for refusal in Refusal], [*range(1, 22)])
        for refusal in Refusal:
            message = str(Refused(int(refusal), 12))
            self.assertTrue(message.startswith("refused with {}: ".format(int(refusal))), message)
            without_place = refusal.name in ("NOTHING_LEFT", "UNSOUND", "NOT_THE_TEXT", "NO_GAIN", "NO_SUCH_BENCH")
            self.assertEqual("12" not in message.split(": ")[1], without_place, message)

    def test_a_refusal_can_be_pickled(self):
        copy = pickle.loads(pickle.dumps(Refused(4, 8)))
        self.assertEqual((copy.number, copy.place, copy.refusal), (4, 8, Refusal.LEFT_OVER_BITS))
        copy = pickle.loads(pickle.dumps(RefusedText(Text.SECOND, 4, 8)))
        self.assertEqual((copy.text, copy.number, copy.place), (Text.SECOND, 4, 8))


class Loading(unittest.TestCase):
    def test_structs_have_their_sizes_in_c(self):
        """A struct that is too small would be written past its end. These are the sizes that C gives them on x86-64."""
        sizes = {
            qalithonda._Numbers: 16,
            qalithonda._Page: 48,
            qalithonda._Edited: 64,
            qalithonda._Asked: 24,
            qalithonda._Bench: 40,
            qalithonda._Benches: 88,
            qalithonda._BenchesEdited: 104,
            qalithonda._Compared: 48,
            qalithonda._Utf7Cursor: 32,
            qalithonda._Utf7Stepped: 72,
            qalithonda._Jp2Cursor: 24,
            qalithonda._Jp2Stepped: 64,
            qalithonda._MailboxCursor: 32,
            qalithonda._MailboxStepped: 72,
        }
        for struct, size in sizes.items():
            self.assertEqual(ctypes.sizeof(struct), size, struct.__name__)

    def test_a_missing_library_is_named(self):
        environment = dict(os.environ, QALITHONDA_LIB=str(HERE / "nowhere"))
        command = [sys.executable, "-B", "-c", "import qalithonda"]
        result = subprocess.run(command, cwd=str(HERE), env=environment, capture_output=True, text=True)
        self.assertNotEqual(result.returncode, 0)
        self.assertIn("nowhere/libqalithonda.so is not there: run `make`", result.stderr)


if __name__ == "__main__":
    unittest.main()
