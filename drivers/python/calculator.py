#!/usr/bin/env python3
"""A calculator. The actions of its grammar stand here, by the names of their rules. These come from
the grammar, as the table does:

    yacc calculator.y
    ydebug rules calculator.y --python calculator_rules.py
    python3 calculator.py y.tab < sums
"""
from __future__ import annotations

import re
import sys
from pathlib import Path
from typing import Iterator, List, Tuple

import calculator_rules as rules
from ydriver import Entry, Fault, Parser, Result, read_table

TOKEN = re.compile(r"[ \t]*(?:([0-9]+\.?[0-9]*)|(.|\n))")


def divide(first: float, second: float) -> float:
    return first / second if second else float("inf")


ACTIONS = {
    rules.RULE_print: lambda sum, _: print(f"{sum:g}"),
    rules.RULE_add: lambda first, _, second: first + second,
    rules.RULE_subtract: lambda first, _, second: first - second,
    rules.RULE_multiply: lambda first, _, second: first * second,
    rules.RULE_divide: lambda first, _, second: divide(first, second),
    rules.RULE_negate: lambda _, sum: -sum,
    rules.RULE_group: lambda _open, sum, _close: sum,
}


def calculate(rule: int, left: int, entries: List[Entry]) -> object:
    values = [entry.value for entry in entries]
    return ACTIONS[rule](*values) if rule in ACTIONS else next(iter(values), None)


def tokens_of(text: str) -> Iterator[Tuple[str, float, int]]:
    """A lexer: the name of each token, its value, and its line."""
    line = 1
    for number, sign in TOKEN.findall(text):
        yield "NUMBER" if number else f"'{sign}'".replace("\n", r"\012"), float(number or 0), line
        line += sign == "\n"


def main(path: str) -> int:
    table = read_table(Path(path).read_bytes(), rules.TABLE_DIGEST)
    if isinstance(table, Fault):
        sys.exit(str(table))

    def complain(token: int, line: int) -> None:
        print(f"line {line}: {table.names[token]} can't come here")

    parser = Parser(table, reduce=calculate, error=complain)
    for name, value, line in tokens_of(sys.stdin.read()):
        result = parser.push(name, value, line)
        if result is Result.NO_TOKEN:
            print("no token begins here")
        if result is not Result.MORE:
            return 1
    return 0 if parser.finish() is Result.ACCEPTED else 1


if __name__ == "__main__":
    sys.exit(main(*sys.argv[1:]))
