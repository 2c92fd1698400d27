"""Both programs between devices: one call after another fails, or goes through with no byte."""
from dataclasses import dataclass, replace
from functools import partial
from itertools import count, product

from checks.scenarios.cases import Beginning, run, stored, wrong
from checks.hostile.devices import Device, counting
from checks.hostile.sessions import SESSIONS, Session, lines


@dataclass
class Text:
    """A text that a program writes: where it goes, its name among what comes back, and what is
    said and what is left out where it can't be written."""

    scenario: object
    on: str
    name: str
    told: dict
    without: tuple = ()


def failed(message):
    """What comes back where something can't be read or written."""
    return {"message": message.encode() + b"\n", "status": b"3\n"}


ONE_RULE, CONFLICT = "examples/one-rule/tables", "scenarios/yacc/shift-reduce-conflict"
LATER = 10**9
WAYS = [("fail", False), ("nothing", False), ("fail", True)]
# Messages and help that can't be written are passed over.
SPOKEN = [
    (CONFLICT, "2", "message"),
    ("scenarios/yacc/help", "1", "stdout"),
    ("scenarios/yacc/no-word", "2", "message"),
    ("scenarios/yacc/absent-grammar", "2", "message"),
    ("scenarios/yacc/refused-grammar", "2", "message"),
    ("scenarios/ystep/help", "1", "stdout"),
    ("scenarios/ystep/one-word", "2", "message"),
    ("scenarios/ystep/absent-tokens", "2", "message"),
    ("scenarios/ystep/fault-foreign-byte", "2", "message"),
    ("scenarios/tokens/unknown-word", "2", "message"),
]


def texts():
    """Each text that is written."""
    told = failed("yacc: cannot write y.tab")
    yield Text(stored(ONE_RULE), "y.tab", "left/y.tab", told, ("left/y.output",))
    told = failed("yacc: cannot write y.output")
    yield Text(stored(ONE_RULE), "y.output", "left/y.output", told)
    told = failed("yacc: cannot write if.tab")
    yield Text(stored(CONFLICT), "if.tab", "left/if.tab", told)
    for path, on, name in SPOKEN:
        yield Text(stored(path), on, name, {})
    for session in SESSIONS:
        yield Text(session.scenario(), "1", "stdout", failed("ystep: write fault"))


def cut(text, device, at):
    """What is wanted where a text can't be written from some call on."""
    whole = text.scenario.wanted[text.name]
    # A byte a call was taken before, and what was refused is offered to no later call.
    part = Beginning(whole, *(at - 1, at - 1) if device.most else (0, len(whole) - 1))
    kept = {it: text.scenario.wanted[it] for it in text.scenario.wanted if it not in text.without}
    return {**kept, text.name: part, **text.told}


def in_turn(it, device, broken, programs, library):
    """Disturbs one call after another, until a run has none of that number and ends as usual.

    `broken` gives what is wanted where the call of a number is disturbed.
    """
    for at in count(1):
        disturbed = replace(device, at=at)
        made, calls = counting(disturbed, library, partial(run, it, programs))
        differs = wrong(made, broken(at) if at <= calls else it.wanted)
        differs += [] if calls else ["the device was never called\n"]
        yield f"{' '.join(it.words)}: {disturbed}", differs
        if at > calls:
            return


def written(text, device, programs, library):
    """A text, each of whose writes is disturbed once."""
    return in_turn(text.scenario, device, partial(cut, text, device), programs, library)


def after_a_read(it, cut_input, told):
    """What is wanted of a session whose input fails, or ends, after some bytes."""

    def broken(at):
        """What is wanted where the call of a number is disturbed."""
        given = it.stdin()[: at - 1]
        return {**it.scenario().wanted, "stdout": cut_input(given), **told}

    return broken


def session_reads(session):
    """Readers of a session's input, with what is wanted of each."""
    fault = failed("ystep: read fault")
    yield Device("read", "0", most=1), after_a_read(session, session.replies_to, fault)
    end = after_a_read(session, session.replies_to_end, {})
    yield Device("read", "0", how="nothing", most=1), end


def all_at_once(session):
    """A reader that gives all lines with its first call, and fails at that or at the next."""
    fault, it = failed("ystep: read fault"), session.scenario()
    return lambda at: {**it.wanted, "stdout": b"" if at == 1 else it.wanted["stdout"], **fault}


def file_reads():
    """Readers of files, with what is wanted."""
    for path, name in ((ONE_RULE, "grammar.y"), (CONFLICT, "if.y")):
        it = stored(path)
        left = {f"left/{name}": it.inputs[name] for name in it.inputs}
        told = {"stdout": b"", **failed(f"yacc: cannot read {name}"), **left}
        yield it, name, lambda at, told=told: told
    for session in SESSIONS:
        it = session.scenario()
        for name in it.inputs:
            told = {**it.wanted, "stdout": b"", **failed(f"ystep: cannot read {name}")}
            yield it, name, lambda at, told=told: told


def ends_at_quit(programs, library):
    """Of an input that comes byte by byte nothing is read after the newline of `quit`."""
    replies = [("step", lines("1 shift 'x'")), ("quit", ""), ("step", "")]
    it = Session("%% s : 'x' ;\n", "'x'\n", replies).scenario()
    device = Device("read", "0", at=LATER, most=1)
    made, calls = counting(device, library, partial(run, it, programs))
    read = [] if calls == len("step\nquit\n") else [f"{calls} calls of the reader\n"]
    yield "nothing is read after quit", wrong(made, it.wanted) + read


def tasks(programs, library):
    """Each gives pairs of a name and of what is wrong there."""
    for text, (how, once), most in product(texts(), WAYS, (0, 1)):
        device = Device("write", text.on, how=how, most=most, once=once)
        yield partial(written, text, device, programs, library)
    for session in SESSIONS:
        for device, broken in session_reads(session):
            yield partial(in_turn, session.scenario(), device, broken, programs, library)
        device, broken = Device("read", "0"), all_at_once(session)
        yield partial(in_turn, session.scenario(), device, broken, programs, library)
    yield partial(ends_at_quit, programs, library)
    for it, name, broken in file_reads():
        for most in (0, 1):
            yield partial(in_turn, it, Device("read", name, most=most), broken, programs, library)
