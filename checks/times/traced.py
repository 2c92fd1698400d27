"""Writes the numbers of a tokens file for a parser of byacc, as the C compiler has integers.

    numbers TOKENS HEADER OUT

HEADER is the file of byacc's `-d`, which gives the names their numbers.
"""
import array
import re
from pathlib import Path

from checks.shared.reader import value_of
from checks.shared.spelling import WORD

DEFINED = re.compile(r"#define (\w+) (\d+)")


def number(word, numbers):
    """The number of a word: a literal has that of its byte."""
    value = value_of(word) if word[:1] == b"'" else None
    return numbers[word.decode()] if value is None else value


def numbers_of(tokens, header):
    """The numbers of a tokens file, as C has them."""
    numbers = {name: int(n) for name, n in DEFINED.findall(header)}
    words = (found[0] for found in WORD.finditer(tokens))
    return array.array("i", [number(word, numbers) for word in words]).tobytes()


def main(words):
    """Writes the numbers of a file."""
    tokens, header, out = map(Path, words)
    out.write_bytes(numbers_of(tokens.read_bytes(), header.read_text()))
