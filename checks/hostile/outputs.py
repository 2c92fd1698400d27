"""What `ydebug` writes where a disk is full, into a pipe that nobody reads, over files with rights
and names of their own; files that change under it, and reports whose steps are spent."""
import os
import re
import resource
import signal
import subprocess
import tempfile
from functools import partial
from pathlib import Path

from checks.scenarios.cases import program_of, run, scenario, stored, wrong
from checks.scenarios.folders import lay
from checks.scenarios.proved import run_in, words_of
from checks.shared.grammars import dense
from checks.shared.spelling import WARNED

SECONDS = 60
# The most seconds of a processor that a report takes beside the tables.
SOON = 2
# Eight rules whose conflicts have many other lists of tokens, of which few come to their states.
EIGHT = b"%token A\n%%\nt : t t '*' '/' %prec '*' | t s | | %prec A ;\n"
EIGHT += b"s : | '/' | s t A | '/' t ;\n"
# The most bytes of a file on a disk that counts as full.
MOST = 1_000
LIST = b"%%\nlist : 'x' | list 'x' ;\n"
TOKENS = b"'x' " * MOST + b"\n"
# A grammar with a conflict that is more than 1,000 bytes away, and a comment as long.
FAR = b"%%\ns : far e ;\nfar : " + b"'x' " * 250 + b";\ne : e '+' e | 'x' ;\n"
LONG = b"%%\ns : 'x' ; /* " + b"long " * MOST + b"*/\n"
OLD = b"as it was\n"
SPEC = b"%skip \\s+\n"


def told(it, programs, back, **how):
    """What is wrong with a run that has streams or limits of its own."""
    return wrong(run(it, programs, **how), {**it.wanted, **back})


# A full disk


def full_disk():
    """No file gets longer, and an attempt fails as on a disk that is full."""
    signal.signal(signal.SIGXFSZ, signal.SIG_IGN)
    resource.setrlimit(resource.RLIMIT_FSIZE, (MOST, MOST))


def on_a_full_disk(words, inputs, programs, stdin=b"", **back):
    """A run that can't write its output: each file that was there is as it was, and no other is."""
    it = scenario(words, inputs, stdin, **back)
    yield f"{' '.join(words)}: a full disk", told(it, programs, {}, preexec_fn=full_disk)


def unsaved(programs, form, first):
    """A run that can't keep its lists says what one says that keeps none."""
    words = ["ydebug", form, "far.y"]
    inputs = {"far.y": FAR, "lists/other": OLD}
    text = run(scenario(words, inputs), programs)["stdout"]
    differs = [] if b" 1" in text.splitlines()[0] else ["there is no list\n"]
    message = f"ydebug: cannot write lists/{first}\n".encode()
    back = {"message": message, "status": b"3\n", "stdout": text}
    it = scenario([*words, "--save", "lists"], inputs, **back)
    differs += told(it, programs, {}, preexec_fn=full_disk)
    yield f"ydebug {form} --save: a full disk", differs


def disks(programs):
    """Runs that can't write their output."""
    for old in ({}, {"out": OLD}):
        refused = {"message": b"ydebug: cannot write out\n", "status": b"3\n"}
        words, inputs = ["ydebug", "import", "long.y", "-o", "out"], {"long.y": LONG}
        yield partial(on_a_full_disk, words, inputs | old, programs, **refused)
        words = ["ydebug", "page", "list.y", "tokens", "-o", "out"]
        inputs = {"list.y": LIST, "tokens": b"'x'\n"}
        yield partial(on_a_full_disk, words, inputs | old, programs, **refused)
        for form in ("--header", "--python"):
            words, inputs = ["ydebug", "rules", "far.y", form, "out"], {"far.y": FAR}
            yield partial(on_a_full_disk, words, inputs | old, programs, **refused)
    words = ["ydebug", "errors", "far.y", "--messages", "out", "--update"]
    for old in ({}, {"out": b"'+'\n\nNothing begins so.\n"}):
        yield partial(on_a_full_disk, words, {"far.y": FAR} | old, programs, **refused)
    words, inputs = ["ydebug", "list.y", "tokens"], {"list.y": LIST, "tokens": TOKENS, "old": OLD}
    lines = b"save! old\nsave new\nsave! new\nsave! tokens\n"
    replies = b"".join(b"%s can't be written.\n" % it for it in (b"old", b"new", b"new", b"tokens"))
    yield partial(on_a_full_disk, words, inputs, programs, lines, stdout=replies)
    yield partial(unsaved, programs, "conflicts", "conflict-1")
    yield partial(unsaved, programs, "sentences", "rules-1.tokens")


# A pipe that nobody reads


def unread(it, stream, programs):
    """A run whose output or messages nobody reads any more ends quietly."""
    ours, theirs = os.pipe()
    os.close(ours)
    back = {"stdout": b"", "message": b"", "status": b"141\n"}
    try:
        how = {stream: theirs}
        yield f"{' '.join(it.words)}: nobody reads {stream}", told(it, programs, back, **how)
    finally:
        os.close(theirs)


def pipes(programs):
    """Runs whose output nobody reads."""
    inputs = {"list.y": LIST, "far.y": FAR, "bad.y": b"%%\n"}
    inputs |= {"tokens": b"'x'\n", "text": b"x\n", "a.lex": SPEC}
    forms = ["list.y tokens", "conflicts far.y", "check list.y tokens", "page list.y tokens"]
    forms += ["import list.y", "tokens list.y --lex a.lex text", "lex-spec list.y", "--help"]
    forms += [
        "rules list.y", "conflicts --help", "check list.y --lex a.lex text", "check list.y none"
    ]
    forms += ["errors list.y"]
    for form in forms:
        it = scenario(["ydebug", *form.split()], inputs, b"run\ngrammar\n")
        yield partial(unread, it, "stdout", programs)
    refused = ["bad.y tokens", "conflicts bad.y", "list.y none", "import bad.y", "rules bad.y"]
    for form in [*refused, "errors bad.y"]:
        it = scenario(["ydebug", *form.split()], inputs)
        yield partial(unread, it, "stderr", programs)


# Files with rights and names of their own


def kept(it, programs, prepare, look):
    """A run in a folder that is prepared; what is wrong with what is there afterwards."""
    with tempfile.TemporaryDirectory() as room:
        made = run_in(room, it, program_of(it, programs), prepare)
        differs = wrong(made, it.wanted) + [f"{line}\n" for line in look(room)]
    yield f"{' '.join(it.words)}: {look.__doc__}", differs


def with_rights(room):
    """Gives a file rights of its own."""
    os.chmod(f"{room}/out", 0o640)


def has_rights(room):
    """the rights of a file stay"""
    rights = os.stat(f"{room}/out").st_mode & 0o777
    return [] if rights == 0o640 else [f"the rights are {rights:o} and not 640"]


def with_two_names(room):
    """Gives a file another name."""
    os.link(f"{room}/out", f"{room}/same")


def has_two_names(room):
    """a file of two names is written in place"""
    return [] if os.path.samefile(f"{room}/out", f"{room}/same") else ["they are two files"]


def read_only(room):
    """Takes the right to write a file."""
    os.chmod(f"{room}/out", 0o440)


def is_unwritten(room):
    """a file that may not be written isn't replaced"""
    return []


def owned(programs):
    """Runs over files with rights and names of their own."""
    words, text = ["ydebug", "import", "one.y", "-o", "out"], b"%%\ns : 'x' ;\n"
    inputs = {"one.y": text, "out": OLD}
    it = scenario(words, inputs, **{"left/out": text})
    yield partial(kept, it, programs, with_rights, has_rights)
    it = scenario(words, inputs, **{"left/out": text, "left/same": text})
    yield partial(kept, it, programs, with_two_names, has_two_names)
    if os.geteuid():
        it = scenario(words, inputs, message=b"ydebug: cannot write out\n", status=b"3\n")
        yield partial(kept, it, programs, read_only, is_unwritten)


# Files that change


def typed(running, line, replies):
    """Gives a session a line, and reads so many lines of its reply."""
    running.stdin.write(line)
    running.stdin.flush()
    return b"".join(running.stdout.readline() for _ in range(replies))


def reloaded(programs):
    """A grammar file that is refused when it is read again: the parse stays as it was."""
    told = stored("scenarios/ydebug/faults/g5-end")
    faulty, fault = told.inputs["grammar.y"], told.wanted["message"]
    it = scenario(["ydebug", "grammar.y", "tokens"], {"grammar.y": LIST, "tokens": b"'x'\n"})
    with tempfile.TemporaryDirectory() as room:
        lay(it.inputs, room)
        how = {"stdin": subprocess.PIPE, "stdout": subprocess.PIPE, "cwd": room, "env": {}}
        how["executable"] = program_of(it, programs)
        with subprocess.Popen(words_of(it), **how) as running:
            step = typed(running, b"step\n", 1)
            Path(room, "grammar.y").write_bytes(faulty)
            again = typed(running, b"reload\n", fault.count(b"\n") + 1)
            where = typed(running, b"rule 2\n", 2)
            Path(room, "grammar.y").write_bytes(LIST)
            last, _ = running.communicate(b"reload\n", SECONDS)
    wanted = b"      1  shift    'x'", fault + b"The parse is as it was.\n"
    wanted += b"rule 2 (line 2), no precedence\n   list: list 'x'\n",
    wanted += b"Both files are read again; the position is 1, as before.\n",
    made = step[: len(wanted[0])], again, where, last
    yield "a grammar file that changes", [
        f"{ours} came and not {theirs}\n" for ours, theirs in zip(made, wanted) if ours != theirs
    ]


# Reports whose steps are spent


def spent(count, programs):
    """A kind of conflict is explained with its lists, or it is counted with those left out."""
    inputs = {"dense.y": dense(count, count).encode()}
    it = scenario(["ydebug", "conflicts", "dense.y"], inputs)
    text = run(it, programs)["stdout"].decode()
    kinds = re.match(r"dense.y: .* of (\d+) groups\n", text)
    told = len(re.findall(rf"^{WARNED}conflict \d+: ", text, re.M))
    told += sum(map(int, re.findall(r"^  (?:The same|Also) on (\d+) other tokens?,", text, re.M)))
    rest = r"^(\d+) groups more; the search for their lists of tokens would take too long:$"
    more = re.search(rest, text, re.M)
    counted = kinds and more and told + int(more[1]) == int(kinds[1])
    differs = [] if counted else [f"{told} told; {kinds and kinds[0]}{more and more[0]}\n"]
    yield f"conflicts of {count} dense nonterminals", differs


def seconds_of(words, room, programs):
    """The seconds of a processor that a run takes."""
    how = {"cwd": room, "env": {}, "executable": programs[words[0]]}
    quiet = {"stdout": subprocess.DEVNULL, "stderr": subprocess.DEVNULL}
    with subprocess.Popen(words, **how, **quiet) as running:
        _, status, used = os.wait4(running.pid, 0)
        running.returncode = os.waitstatus_to_exitcode(status)
    return used.ru_utime + used.ru_stime


def soon(text, programs):
    """A report takes few seconds more than the tables."""
    with tempfile.TemporaryDirectory() as room:
        lay({"one.y": text}, room)
        tables = seconds_of(["ydebug", "table", "one.y"], room, programs)
        report = seconds_of(["ydebug", "conflicts", "one.y"], room, programs)
    is_late = report - tables > SOON
    differs = [f"{report} seconds, and {tables} for the tables\n"] if is_late else []
    yield f"conflicts in time: {len(text)} bytes", differs


def tasks(programs, _):
    """All of these, where `ydebug` is there."""
    if "ydebug" in programs:
        for some in (disks, pipes, owned):
            yield from some(programs)
        yield partial(reloaded, programs)
        yield partial(spent, 120, programs)
        yield partial(soon, EIGHT, programs)
