"""Hostile files and streams: closed or full streams, folders, pipes, no end."""
import os
import pty
import resource
import select
import subprocess
import tempfile
import threading
from contextlib import contextmanager
from dataclasses import replace
from functools import partial

from checks.hostile.sessions import SESSIONS
from checks.scenarios.cases import program_of, run, scenario, stored, wrong
from checks.scenarios.folders import lay
from checks.scenarios.proved import ended, run_in, words_of

FILE_LIMIT, MEMORY, SECONDS = 1_048_576, 300 << 20, 20
READ_FAULT = {"stdout": b"", "message": b"ystep: read fault\n", "status": b"3\n"}
WRITE_FAULT = {"stdout": b"", "message": b"ystep: write fault\n", "status": b"3\n"}
SILENT_FAULT = {"stdout": b"", "message": b"", "status": b"3\n"}
USAGE = {
    "yacc": b"usage: yacc [-v] [-b prefix] grammar\n",
    "ystep": b"usage: ystep grammar tokens\n",
}
CONFLICT = "scenarios/yacc/shift-reduce-conflict"
FAULTY = "scenarios/ystep/fault-foreign-byte"
SHORT = b"%% s : 'x' ;\n"


def told(it, programs, back, **how):
    """What is wrong with a run that has streams of its own, where `back` is not as usual."""
    return wrong(run(it, programs, **how), {**it.wanted, **back})


# Streams


def close(numbers):
    """Closes some streams."""
    for number in numbers:
        os.close(number)


def closed(it, numbers, back, programs):
    """A run that finds some of its streams closed."""
    name = f"{' '.join(it.words)}: closed streams {numbers}"
    yield name, told(it, programs, back, preexec_fn=partial(close, numbers))


def full(it, stream, back, programs):
    """A run whose output goes to a device that is full."""
    with open("/dev/full", "wb") as device:
        yield f"{' '.join(it.words)}: full {stream}", told(it, programs, back, **{stream: device})


def left_alone(it, programs):
    """A session whose replies nobody reads any more."""
    ours, theirs = os.pipe()
    os.close(ours)
    try:
        yield "a pipe without a reader", told(it, programs, WRITE_FAULT, stdout=theirs)
    finally:
        os.close(theirs)


def streams(programs):
    """Runs with closed and full streams."""
    session, conflict, faulty = SESSIONS[0].scenario(), stored(CONFLICT), stored(FAULTY)
    helps = [stored("scenarios/yacc/help"), stored("scenarios/ystep/help")]
    quiet = {"message": b""}
    cases = [(session, [0], READ_FAULT), (session, [1], WRITE_FAULT), (session, [2], {})]
    cases += [(session, [0, 1, 2], SILENT_FAULT), (faulty, [2], quiet), (faulty, [0, 1, 2], quiet)]
    cases += [(conflict, [0], {}), (conflict, [1], {}), (conflict, [2], quiet)]
    cases += [(conflict, [0, 1, 2], quiet), *((it, [1], {"stdout": b""}) for it in helps)]
    for it, numbers, back in cases:
        yield partial(closed, it, numbers, back, programs)
    cases = [(session, "stdout", WRITE_FAULT), (session, "stderr", {})]
    cases += [(it, "stderr", quiet) for it in (conflict, faulty)]
    cases += [(it, "stdout", {"stdout": b""}) for it in helps]
    for it, stream, back in cases:
        yield partial(full, it, stream, back, programs)
    yield partial(left_alone, session, programs)


# Files


def usual(it, programs, name):
    """A run that has nothing of its own."""
    yield name, told(it, programs, {})


def refused(words, message, status, inputs):
    """A run that ends with a message."""
    back = {"message": message.encode() + b"\n", "status": b"%d\n" % status}
    return scenario(words, inputs, **back)


@contextmanager
def fed(path, text):
    """A pipe with a name, into which a text is written once."""
    os.mkfifo(path)
    writer = threading.Thread(target=lambda: open(path, "wb").write(text), daemon=True)
    writer.start()
    yield
    writer.join(SECONDS)


def through_a_pipe(it, name, programs):
    """A run that finds a pipe in place of a file."""
    others = {path: text for path, text in it.inputs.items() if path != name}
    wanted = {path: text for path, text in it.wanted.items() if path != f"left/{name}"}
    with tempfile.TemporaryDirectory() as room, tempfile.TemporaryDirectory() as beside:
        pipe = os.path.join(beside, name)
        words = [pipe if word == name else word for word in it.words]
        piped = replace(it, words=words, inputs=others)
        with fed(pipe, it.inputs[name]):
            made = run_in(room, piped, program_of(it, programs))
        yield f"{' '.join(it.words)}: {name} is a pipe", wrong(made, wanted)


def taken_while(running, pipe, piece):
    """How many bytes a program takes from a pipe that is filled again and again."""
    given = 0
    while running.poll() is None:
        if select.select([], [pipe], [], 0.01)[1]:
            try:
                given += os.write(pipe, piece)
            except BlockingIOError:
                pass
    while select.select([pipe], [], [], 0)[0]:
        given -= len(os.read(pipe, 1 << 16))
    return given


def without_end(it, path, piece, most, programs, **how):
    """A run over a pipe without an end: what is wrong, and what it took where that is limited."""
    with tempfile.TemporaryDirectory() as room, tempfile.TemporaryDirectory() as beside:
        lay(it.inputs, room)
        file = os.path.join(beside, path)
        os.mkfifo(file)
        pipe = os.open(file, os.O_RDWR | os.O_NONBLOCK)
        words = [file if word == path else word for word in it.words]
        pipes = {"stdin": subprocess.DEVNULL, "stdout": subprocess.PIPE, "stderr": subprocess.PIPE}
        pipes |= {"cwd": room, "env": {}, "executable": program_of(it, programs), **how}
        with subprocess.Popen(words, **pipes) as running:
            taken = taken_while(running, pipe, piece)
            texts = [running.stdout.read(), running.stderr.read()]
        os.close(pipe)
        ran = subprocess.CompletedProcess(words, running.returncode, *texts)
        differs = wrong(ended(ran, room), it.wanted)
    if most is not None and taken != most:
        differs.append(f"{taken} bytes were read and not {most}\n")
    yield f"{' '.join(it.words)}: no end", differs


def small_memory():
    """Limits the memory of a run."""
    resource.setrlimit(resource.RLIMIT_AS, (MEMORY, MEMORY))


def files(programs):
    """Runs over folders, pipes and files without an end."""
    for name in ("yacc", "ystep"):
        more = [] if name == "yacc" else ["tokens"]
        inputs = {"tokens": b"'x'"}
        it = refused([name, "..", *more], f"{name}: cannot read ..", 3, inputs)
        yield partial(usual, it, programs, f"{name}: a folder as grammar")
        it = refused([name, "/dev/zero", *more], f"{name}: G1", 1, inputs)
        yield partial(usual, it, programs, f"{name}: zeros without end as grammar")
        it = refused([name, "endless", *more], f"{name}: G1", 1, inputs)
        yield partial(without_end, it, "endless", b" " * 4096, FILE_LIMIT + 1, programs)
    it = refused(["ystep", "one.y", ".."], "ystep: cannot read ..", 3, {"one.y": SHORT})
    yield partial(usual, it, programs, "ystep: a folder as tokens")
    it = refused(["ystep", "one.y", "endless"], "ystep: no memory", 3, {"one.y": SHORT})
    for piece in (b"'x' " * 1024, b" " * 4096):
        how = {"preexec_fn": small_memory}
        yield partial(without_end, it, "endless", piece, None, programs, **how)
    session = SESSIONS[0].scenario()
    yield partial(through_a_pipe, session, "grammar.y", programs)
    yield partial(through_a_pipe, session, "tokens", programs)
    yield partial(through_a_pipe, stored(CONFLICT), "if.y", programs)


# Words


def words(programs):
    """Runs with words that are no text."""
    inputs = {"one.y": SHORT, "tokens": b"'x'"}
    lists = [["yacc", b"\xff"], ["yacc", b"\xff", "one.y"], ["yacc", "-b", b"a\xff", "one.y"]]
    lists += [["yacc", "one.y", b"\xc3"], ["ystep", b"one.y\xff", "tokens"]]
    lists += [["ystep", "one.y", b"\xed\xa0\x80"], ["ystep", b"-\xff"]]
    for given in lists:
        it = scenario(given, inputs, message=USAGE[given[0]], status=b"2\n")
        yield partial(usual, it, programs, f"{given}: no text")


# Replies in time


def reply_of(source, length, seconds=SECONDS):
    """What comes within some seconds, up to a length."""
    made = b""
    while len(made) < length and select.select([source], [], [], seconds)[0]:
        piece = os.read(source, length - len(made))
        if not piece:
            break
        made += piece
    return made


def typed(session, sink, source, pieces_of):
    """What is wrong where lines are typed, each only once the reply to the one before has come."""
    for line, reply in session.replies:
        for piece in pieces_of(f"{line}\n".encode()):
            os.write(sink, piece)
        made = reply_of(source, len(reply))
        if made != reply.encode():
            yield f"{line}: {made} came and not {reply.encode()}\n"
            return


def bytewise(line):
    """The bytes of a line."""
    return [line[at : at + 1] for at in range(len(line))]


def in_time(session, programs, terminal):
    """Each reply comes as soon as the newline of its line was given, before anything else is."""
    it = session.scenario()
    with tempfile.TemporaryDirectory() as room:
        lay(it.inputs, room)
        sink, stdin = pty.openpty() if terminal else reversed(os.pipe())
        pipes = {"stdin": stdin, "stdout": subprocess.PIPE, "stderr": subprocess.PIPE}
        pipes |= {"cwd": room, "env": {}, "executable": program_of(it, programs)}
        with subprocess.Popen(words_of(it), **pipes) as running:
            os.close(stdin)
            differs = list(typed(session, sink, running.stdout.fileno(), bytewise))
            if terminal:
                os.write(sink, b"\x04")
                running.wait(SECONDS)
            os.close(sink)
            texts = [running.stdout.read(), running.stderr.read()]
        ran = subprocess.CompletedProcess(it.words, running.returncode, *texts)
        differs += wrong(ended(ran, room), {**it.wanted, "stdout": b""})
    yield f"{' '.join(it.words)}: {'a terminal' if terminal else 'a pipe'}, a byte a time", differs


def replies(programs):
    """Runs whose lines come byte by byte."""
    for session in SESSIONS:
        for terminal in (False, True):
            yield partial(in_time, session, programs, terminal)


def tasks(programs, _):
    """All of these."""
    for some in (streams, files, words, replies):
        yield from some(programs)
