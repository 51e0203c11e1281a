"""Whole numbers of a text, compared with what Python reads."""
from __future__ import annotations

import random
import unittest
from typing import Optional

from helpers import equal
from recon.toolbox import whole_text
from recon.toolbox.whole_text import whole_numbers

GOOD = (b'', b'\n', b' \n  ', b'0\n', b'-0 7\n', b'00000000 99999999\n', b'-99999999\n', b'1 2\n3\n', b'12345678 ', b'1  2\n\n3 ')
BAD = (b'1', b'1\n2', b'-\n', b'1 - 2\n', b'--1\n', b'1-2\n', b'1.5\n', b'+1\n', b'1e3\n', b'a\n', b'123456789\n', b'-123456789\n', b'1\t2\n', b'1\r\n',
       b'1\x002\n', b'1\xff\n', b'1/2\n', b'1:\n', b'\x80\n', b'0x10\n', b'1_0\n', b'12345678901234567890\n', b'\xb2\n')


def plain(text: bytes) -> list[int]:
    """The numbers of a text that is good."""
    return [int(word) for word in text.split()]


def got(text: bytes, begin: int = 0) -> Optional[list[int]]:
    numbers = whole_numbers(text, begin)
    return None if numbers is None else numbers.tolist()


class WholeText(unittest.TestCase):
    def setUp(self) -> None:
        self.chunk = whole_text.CHUNK

    def tearDown(self) -> None:
        whole_text.CHUNK = self.chunk

    def test_good_texts(self) -> None:
        for text in GOOD:
            for before in (b'', b'7', b'ply -', b'end_header\n', b'12345678'):
                equal((text, before, got(before + text, len(before))), (text, before, plain(text)))

    def test_other_texts(self) -> None:
        for text in BAD:
            for rest in (b'', b'1 2 3\n', b'12345678 -5\n'):
                equal((text, got(rest + text)), (text, None))
        equal((whole_numbers(b'1\t2\r\n', blanks=b' \t\r\n').tolist(), whole_numbers(b'1\x0b2\n', blanks=b' \t\r\n')), ([1, 2], None))

    def test_many_numbers_in_parts_of_all_sizes(self) -> None:
        draw = random.Random(1)
        words = [str(draw.choice([1, -1]) * draw.randrange(10 ** draw.randrange(1, 9))).encode() for _ in range(400)]
        text = b''.join(word + draw.choice([b' ', b'\n', b'  ']) for word in words)
        for chunk in (1, 2, 7, 30, 1000, 1 << 17):
            whole_text.CHUNK = chunk
            equal((got(text), got(text + b'x\n'), got(text + b'123456789\n')), (plain(text), None, None))

    def test_spoiled_texts(self) -> None:
        draw, good = random.Random(2), b'3 10 -200 3000\n-40000 500000 6000000\n'
        for _ in range(3000):
            at = draw.randrange(len(good))
            text = good[:at] + bytes([draw.choice([0, 9, 10, 32, 45, 46, 47, 48, 57, 58, 101, 128, 255])]) + good[at + draw.randrange(2):]
            words = text.replace(b'\n', b' ').split(b' ')
            digits = [word[1:] if word[:1] == b'-' else word for word in words if word]
            is_good = text[-1:] in (b' ', b'\n') and all(word.isdigit() and len(word) <= 8 for word in digits)
            equal((text, got(text)), (text, [int(word) for word in words if word] if is_good else None))
