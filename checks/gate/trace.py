"""Compares the steps of the recovery example with those in the trace of a byacc parser.

    trace

The trace shows no detection that isn't reported and no acceptance, and tells what it pops by
states; all other words are compared, step by step.
"""
import re
from difflib import unified_diff

from checks.shared.places import EXAMPLES

RECOVERY = EXAMPLES / "recovery"


def step_of(line, token):
    """The step that a line of the trace tells, if it tells one, with the token ahead."""
    if "error recovery shifting" in line:
        return "shift error"
    if "error recovery discarding state" in line:
        return "pop"
    if "error recovery discarding token" in line:
        return f"discard {token}"
    if "after reduction" in line:
        return None
    if "shifting to state" in line:
        return f"shift {token}"
    reduced = re.search(r"reducing by rule (\d+)", line)
    return reduced and f"reduce {reduced[1]}"


def steps_of_trace(text):
    """The steps of a trace, in order."""
    steps, token = [], None
    for line in text.splitlines():
        read = re.search(r"reading token .*?\((.*)\)$", line)
        token = read[1] if read else token
        steps.append(step_of(line, token))
    return [step for step in steps if step]


def steps_of_replies(text):
    """The same steps of a session's replies."""
    found = re.findall(r"^\d+ (?:(pop) .*|((?:shift|reduce|discard) .*))$", text, re.M)
    return [popped or step for popped, step in found]


def differences(trace, replies):
    """The lines that show how a trace and replies differ; none where they are alike."""
    steps = steps_of_trace(trace)
    if not steps:
        return ["the trace has no step"]
    names = "trace", "session/stdout"
    return list(unified_diff(steps, steps_of_replies(replies), *names, lineterm=""))


def main(_):
    """Shows how both differ."""
    texts = (RECOVERY / "trace").read_text(), (RECOVERY / "session/stdout").read_text()
    lines = differences(*texts)
    print("".join(f"{line}\n" for line in lines), end="")
    return 1 if lines else 0
