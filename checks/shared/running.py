"""Programs run by their words, and what they come to."""
import subprocess
import time

SECONDS = 600


def status_of(returned):
    """An exit status as a scenario has it; a signal is none."""
    return f"{returned}\n".encode() if returned >= 0 else f"signal {-returned}\n".encode()


def ran(words, room=None, given="", **how):
    """A run of a program in a folder. Its streams are texts or bytes, as what it is given is."""
    is_text = {"text": True, "errors": "replace"} if isinstance(given, str) else {}
    how = {"capture_output": True, "timeout": SECONDS, **is_text, **how}
    return subprocess.run(words, cwd=room, input=given, **how)


def turns(given):
    """The numbers of turns, as long as the seconds that are given last, and at least one; no more
    than the turns that are given, where some are."""
    end, turn = time.monotonic() + given.seconds, 0
    while not turn or (time.monotonic() < end and turn != given.turns):
        yield turn
        turn += 1
