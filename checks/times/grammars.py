"""Writes the grammar file of a kind and size, to be timed.

    bench-grammar KIND N

Each kind grows with N in its own way; docs/FIGURES.md has their sizes.
"""
import random
import sys


def declared(words, n):
    """The declarations: N tokens by each word, and one more."""
    return "%token LAST" + "".join(f" {word}{k}" for word in words for k in range(n)) + "\n%%\n"


def levels(n):
    """N levels of binary operators without precedences, brackets inside."""
    rules = "".join(f"e{k} : e{k} OP{k} e{k + 1} | e{k + 1} ;\n" for k in range(n))
    return declared(["OP"], n) + rules + f"e{n} : '(' e0 ')' | LAST ;\n"


def statements(n):
    """N kinds of statements, each with a word and a nonterminal, over one kind of expression."""
    rules = "".join(f"statement : kind{k} ;\nkind{k} : WORD{k} e ';' ;\n" for k in range(n))
    ends = "list : | list statement ;\n", "e : e '+' 'n' | 'n' | '(' e ')' ;\n"
    return declared(["WORD"], n) + ends[0] + rules + ends[1]


def options(n):
    """N parts in a row that may each be left out."""
    parts = "s :" + "".join(f" part{k}" for k in range(n)) + " ;\n"
    return declared(["WORD"], n) + parts + "".join(f"part{k} : | WORD{k} ;\n" for k in range(n))


def ring(n, step=1):
    """N nonterminals, each of which leads to the next, and the last to the first."""
    rules = (f"n{k} : n{(k + step) % n} | n{(k + step) % n} AND{k} | WORD{k} ;\n" for k in range(n))
    return declared(["WORD", "AND"], n) + "".join(rules)


def ring_back(n):
    """The same ring, its rules in the other order."""
    return ring(n, -1)


def ring_mixed(n):
    """The same ring, its rules in no order at all."""
    head, *rules = ring(n).split("%%\n")[1].splitlines(keepends=True)
    random.Random(n).shuffle(rules)
    return declared(["WORD", "AND"], n) + head + "".join(rules)


def limit(n):
    """N bodies of 255 symbols that begin with different tokens, and one of 62: 64 of them have
    16,384 states."""
    bodies = "".join(f"s : WORD{k}" + " 'x'" * 254 + " ;\n" for k in range(n))
    return declared(["WORD"], n) + bodies + "s : LAST" + " 'x'" * 61 + " ;\n"


def symbols(n):
    """N nonterminals with four rules each, and seven rules more: with 2,046 of them 4,096 symbols
    and 8,192 rules."""
    first = "n0 : n0 | n0 n0 | n0 n0 n0 | n0 LAST | LAST n0 | LAST LAST | LAST ;\n"
    rules = (
        f"n{k} : WORD{k} n{k // 2} | WORD{k} WORD{k // 2} | n{k // 2} | WORD{k // 2} ;\n"
        for k in range(n)
    )
    return declared(["WORD"], n) + first + "".join(rules)


def text(n):
    """N nonterminals with actions and comments, some 256 bytes each."""
    rules = (
        f"nonterminal_number_{k:04} : 'x' /* {k:>83} */ {{ action({k:>120}); }} ;\n"
        for k in range(n)
    )
    return "%%\n" + "".join(rules)


def queries(n):
    """N kinds of statements as a query language has them: an expression of 20 levels and 100 rules,
    and names of 61, stand in hundreds of rules, and so after the dot in hundreds of items of
    hundreds of states. With 250 kinds some 3,000 rules, 6,000 states, 500 tokens, 400,000 items."""
    kinds = [f"DO{k}" for k in range(n)]
    modes = [f"MODE{k}" for k in range((n + 1) // 2)]
    ops = [f"OP{k}" for k in range(20)]
    calls = [f"CALL{k}" for k in range(36)]
    words = [f"WORD{k}" for k in range(60)]
    lines = [
        "%token NAME NUMBER TEXT OF TO BY AS WITH IN END",
        "%token " + " ".join(kinds + modes + calls + words),
    ]
    lines += [f"%left {op}" for op in ops]
    lines += ["%right NOT", "%%", "file : | file statement ';' ;"]
    lines += [f"e : e {op} e ;" for op in ops]
    calls_of = "name '.' name | name '(' ')' | name '(' es ')'"
    lines += [f"e : NOT e | '(' e ')' | name | NUMBER | TEXT | {calls_of} ;"]
    lines += [f"e : {call} '(' e ')' | {call} '(' e ',' e ')' ;" for call in calls]
    lines += ["es : e | es ',' e ;", "name : NAME | " + " | ".join(words) + " ;"]
    for k, kind in enumerate(kinds):
        lines += [
            f"statement : {kind} e with{k} list{k} how{k} ;",
            f"with{k} : | WITH e | OF e BY e | TO e AS e ;",
            f"list{k} : IN e | list{k} ',' e BY e ;",
            f"how{k} : | AS name | MODE{k // 2} NUMBER | END ;",
        ]
    return "\n".join(lines) + "\n"


def rules_of(left, bodies):
    """The rules of a left side."""
    return f"{left} : " + " | ".join(bodies) + " ;\n"


def zigzag(n):
    """Unit rules up and down a chain of N nonterminals, each with a token after it: 125 states."""
    ends = [[f"n{j}" for j in (k + 1, k - 1) if 0 <= j < n] + [f"n{k} WORD{k}"] for k in range(n)]
    ends[-1].append("LAST")
    start = rules_of("s", ["LAST " + "LAST n0 " * 125])
    return declared(["WORD"], n) + start + "".join(rules_of(f"n{k}", ends[k]) for k in range(n))


def web(n):
    """N nullable nonterminals with three unit rules each on average, drawn at random, 250 of them
    in one body."""
    drawn = random.Random(1)
    bodies = [[""] for _ in range(n)]
    for _ in range(3 * n):
        bodies[drawn.randrange(n)].append(f"n{drawn.randrange(n)}")
    start = rules_of("s", [" ".join(f"n{k % n}" for k in range(250))])
    return declared(["WORD"], n) + start + "".join(rules_of(f"n{k}", bodies[k]) for k in range(n))


def empties(n):
    """N nonterminals with an empty rule each, all possible in each of 20 states, and N tokens."""
    start = rules_of("s", ["LAST" + " a" * 20]) + rules_of("a", [f"n{k}" for k in range(n)])
    return declared(["WORD"], n) + start + "".join(rules_of(f"n{k}", [""]) for k in range(n))


def operators(n):
    """N binary operators without precedence: a conflict for each pair of them."""
    return declared(["OP"], n) + rules_of("e", ["LAST"] + [f"e OP{k} e" for k in range(n)])


def one_empty(n):
    """One complete item beside N others in each of 100 states, and N tokens."""
    start = rules_of("s", ["LAST" + " LAST a" * 100]) + rules_of("a", ["", "b"])
    return declared(["WORD"], n) + start + rules_of("b", ["LAST LAST"] * n)


def nullable(n):
    """N bodies of 250 symbols for each of eight nonterminals, where each symbol can be left out, in
    2,000 states, and 4,000 tokens."""
    bodies = [" ".join([f"n{k}"] + ["a"] * 249) for k in range(8) for _ in range(n)]
    rules = rules_of("s", ["a"]) + rules_of("a", [""] + bodies)
    return declared(["WORD"], 4000) + rules + "".join(rules_of(f"n{k}", [""]) for k in range(8))


def equals(n):
    """N binary operators without precedence, each with eight equal rules, and 4,000 tokens."""
    bodies = [f"e OP{k} e" for k in range(n) for _ in range(8)]
    return declared(["OP"], 4000) + rules_of("e", ["LAST"] + bodies)


KINDS = {
    "levels": levels,
    "statements": statements,
    "options": options,
    "ring": ring,
    "ring-back": ring_back,
    "ring-mixed": ring_mixed,
    "limit": limit,
    "symbols": symbols,
    "text": text,
    "queries": queries,
    "zigzag": zigzag,
    "web": web,
    "empties": empties,
    "operators": operators,
    "one-empty": one_empty,
    "nullable": nullable,
    "equals": equals,
}


def main(words):
    """Writes a grammar file."""
    if len(words) != 2 or words[0] not in KINDS:
        sys.exit(f"{__doc__}\nkinds: {' '.join(KINDS)}")
    sys.stdout.write(KINDS[words[0]](int(words[1])))
