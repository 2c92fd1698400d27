"""Tables that are cut, or in which bytes, numbers or lines are changed."""
import re

ODD = b"\0\n\r \t-+0123456789adgnrst$'\xff"


def cut(table, rng):
    """A beginning of a table."""
    return table[: rng.randrange(len(table))]


def change_bytes(table, rng):
    """Some bytes become others, many of them near the ones that a table has."""
    changed = bytearray(table)
    for _ in range(rng.randint(1, 3)):
        odd = rng.choice(ODD) if rng.random() < 0.7 else rng.randrange(256)
        changed[rng.randrange(len(changed))] = odd
    return bytes(changed)


def change_number(table, rng):
    """A number becomes another one, often one that is near or out of every range."""
    found = rng.choice(list(re.finditer(rb"\d+", table)))
    near = int(found[0]) + rng.choice([-1, 1, 2])
    number = rng.choice([max(near, 0), rng.randint(0, 30), 4097, 2**32, 10**30])
    return table[: found.start()] + b"%d" % number + table[found.end() :]


def change_lines(table, rng):
    """Two lines change places, or one goes, or stands twice."""
    lines = table.splitlines(keepends=True)
    one, other = (rng.randrange(len(lines)) for _ in range(2))
    way = rng.randrange(3)
    if way == 0:
        lines[one], lines[other] = lines[other], lines[one]
    elif way == 1:
        del lines[one]
    else:
        lines.insert(other, lines[one])
    return b"".join(lines)


def spoiled(table, rng):
    """A table that differs from this one, and how it was made."""
    while True:
        way = rng.choice([cut, change_bytes, change_number, change_number, change_lines])
        made = way(table, rng)
        if made != table:
            return made, way.__name__
