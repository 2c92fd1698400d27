"""What a command is given: options, programs as words NAME=PATH, and other words."""
import argparse
import sys

from checks.shared.programs import is_program, missing, needed, programs_of


def parser_of(doc, options):
    """A parser for options, each with its value where it isn't given, or with its type."""
    parser = argparse.ArgumentParser(usage=doc.replace("%", "%%"))
    for name, usual in options.items():
        flag = f"--{name.replace('_', '-')}"
        if usual is False:
            parser.add_argument(flag, action="store_true")
        elif isinstance(usual, type):
            parser.add_argument(flag, type=usual)
        else:
            parser.add_argument(flag, type=type(usual), default=usual)
    parser.add_argument("words", nargs="*")
    return parser


def asked(doc, words, needs=(), **options):
    """The options by their names, the needed programs by theirs, and the other words.

    A program that isn't there, or that isn't needed, ends the command.
    """
    parser = parser_of(doc, options)
    given = parser.parse_intermixed_args(words)
    named = programs_of(filter(is_program, given.words))
    given.words = [it for it in given.words if not is_program(it)]
    given.programs = needed(named, needs)
    unknown = named.keys() - given.programs.keys()
    if unknown:
        parser.error(f"no program {', '.join(sorted(unknown))} is used here")
    lines = missing(given.programs)
    if lines:
        sys.exit("\n".join(lines))
    return given
