"""Runs of `ycc` and `ydebug` whose messages or reports nobody gets, words that are no text, and
outputs that are inputs by a second name: what is written, and what stays."""
import os
import subprocess
from functools import partial

from checks.hostile.outputs import kept
from checks.hostile.strange import close
from checks.scenarios.cases import run, scenario, wrong

NATIVE = b"%%\ns : s s | 'a' ;\n"
FOREIGN = b"%define parse.error verbose\n" + NATIVE
ENDED = b"%token END 0\n%expect 0\n%%\ns : 'a' END ;\n"
SOME = range(16)
# As many conflicts, whose report is longer than a buffer.
MANY = "%%\ns : " + " | ".join(f"e{it}" for it in SOME) + " ;\n"
MANY += "".join(f"e{it} : e{it} '+' e{it} | T{it} ;\n" for it in SOME)
MANY = ("%token " + " ".join(f"T{it}" for it in SOME) + "\n" + MANY).encode()


# Messages


def silent(words, inputs, status, programs, **how):
    """A run whose messages go nowhere writes the files that it writes as usual."""
    it = scenario(words, inputs)
    usual = run(it, programs)
    new = {name for name in usual if name.startswith("left/")} - it.wanted.keys()
    told = [] if usual["message"] and new else ["it says nothing, or writes nothing, as usual\n"]
    back = {**usual, "message": b"", "status": b"%d\n" % status}
    yield f"{' '.join(words)}: nobody gets messages", told + wrong(run(it, programs, **how), back)


def full(words, inputs, status, programs):
    """The same, where messages go to a device that is full."""
    with open("/dev/full", "wb") as device:
        yield from silent(words, inputs, status, programs, stderr=device)


def closed(words, inputs, status, programs):
    """The same, where the stream of messages is closed."""
    how = {"stderr": subprocess.DEVNULL, "preexec_fn": partial(close, [2])}
    yield from silent(words, inputs, status, programs, **how)


def messages(programs):
    """Runs whose messages go nowhere: bison ends with 1 then, `ydebug` with 3."""
    cases = [(["ycc", "-o", "x.c", "one.y"], {"one.y": text}, 1) for text in (NATIVE, FOREIGN)]
    cases += [(["ydebug", "import", "one.y", "-o", "out"], {"one.y": ENDED}, 3)]
    cases += [(["ydebug", "table", "one.y"], {"one.y": NATIVE}, 3)]
    for words, inputs, status in cases:
        if words[0] in programs:
            yield partial(full, words, inputs, status, programs)
            yield partial(closed, words, inputs, status, programs)


# Reports


def unread(words, programs):
    """A run whose report nobody reads keeps all lists that it keeps as usual."""
    it = scenario(words, {"many.y": MANY})
    usual = run(it, programs)
    lists = [name for name in usual if name.startswith("left/lists/")]
    told = [] if len(lists) >= len(SOME) else [f"only {len(lists)} lists are kept as usual\n"]
    ours, theirs = os.pipe()
    os.close(ours)
    try:
        made = run(it, programs, stdout=theirs)
    finally:
        os.close(theirs)
    back = {**usual, "stdout": b"", "status": b"141\n"}
    yield f"{' '.join(words)}: nobody reads", told + wrong(made, back)


def reports(programs):
    """Runs whose reports nobody reads."""
    if "ydebug" in programs:
        words = ["ydebug", "conflicts", "many.y", "--save", "lists"]
        yield partial(unread, words, programs)
        words = ["ydebug", "sentences", "many.y", "--random", "400", "--save", "lists"]
        yield partial(unread, words, programs)


# Words that are no text


def told(it, programs):
    """What is wrong with a run."""
    yield f"{it.words}", wrong(run(it, programs), it.wanted)


def words(programs):
    """Runs with words that are no UTF-8 text: each is told with escapes."""
    inputs = {"one.y": NATIVE, "tokens": b"'a'\n"}
    lists = [(["ycc", b"\xff"], r"\xff"), (["ycc", "-o", b"a\xc3.c", "one.y"], r"a\xc3.c")]
    lists += [(["ycc", "--version", b"\xed\xa0\x80"], r"\xed\xa0\x80")]
    lists += [(["ydebug", "conflicts", b"one\xff.y"], r"one\xff.y")]
    lists += [(["ydebug", "one.y", b"\xe2\x82"], r"\xe2\x82")]
    for given, shown in lists:
        if given[0] in programs:
            message = f"{given[0]}: {shown} is no UTF-8 text\n".encode()
            yield partial(told, scenario(given, inputs, message=message, status=b"2\n"), programs)


# Second names


def with_second_name(room):
    """Gives the grammar file another name."""
    os.link(f"{room}/one.y", f"{room}/same")


def has_second_name(room):
    """an output that is an input by a second name"""
    is_one = os.path.samefile(f"{room}/one.y", f"{room}/same")
    return [] if is_one else ["they are two files"]


def names(programs):
    """Runs whose output is an input by a second name."""
    lists = [["ycc", "-o", "same", "one.y"], ["ycc", "-o", "one.y", "same"]]
    lists += [["ydebug", "import", "one.y", "-o", "same"]]
    lists += [["ydebug", "rules", "one.y", "--header", "same"]]
    for given in lists:
        if given[0] in programs:
            path = given[given.index("-o") + 1] if "-o" in given else "same"
            message = f"{given[0]}: {path} is an input, and isn't written over\n".encode()
            back = {"message": message, "status": b"2\n", "left/same": ENDED}
            it = scenario(given, {"one.y": ENDED}, **back)
            yield partial(kept, it, programs, with_second_name, has_second_name)


def tasks(programs, _):
    """All of these."""
    for some in (messages, reports, words, names):
        yield from some(programs)
