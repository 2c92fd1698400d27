"""Words of tokens files, and the printed names of symbols; and grammar files without their code."""
import re

from checks.shared.reader import LITERAL, lexeme_at, lexemes_of, value_of

WORD = re.compile(rb"%b|[^\s']+" % LITERAL.pattern)
# How a line of ydebug begins that warns of a place of a file, or of the whole file.
WARNED = r"\S+: warning: "


def shown(value):
    """The printed name of a literal."""
    is_plain = 32 <= value <= 126 and value not in b"'\\"
    return f"'{chr(value)}'" if is_plain else f"'\\{value:03o}'"


def spelled(symbol):
    """The printed name of a symbol of the reader: a name in bytes, or a literal's value."""
    return symbol.decode() if isinstance(symbol, bytes) else shown(symbol)


def name_of(word):
    """The printed name of a word of a tokens file."""
    value = value_of(word) if word[:1] == b"'" else None
    return word.decode() if value is None else shown(value)


def names_of(tokens):
    """The printed names of all words of a tokens file."""
    return [name_of(found[0]) for found in WORD.finditer(tokens)]


def replacement(text, it, action):
    """What stands for a lexeme of code in a file that C shall read."""
    is_union = text[: it.at].rstrip().endswith(b"%union")
    return b"{ int none; }" if is_union else action if it.kind == "ACT" else b" "


def bare(text, action=b"{}"):
    """A grammar file up to its second mark, with one text for each action and no other code."""
    parts, before = [], 0
    for it in lexemes_of(text):
        if it.state == "done":
            return b"".join(parts) + text[before : it.at]
        if it.kind in ("ACT", "CODE"):
            parts += [text[before : it.at], replacement(text, it, action)]
            before = lexeme_at(text, it.at)[2]
    return b"".join(parts) + text[before:]
