"""The module in the page, run by node: on grammars with tokens and command lines at random, and on
reports."""
import json
import random
import re
import shutil
import subprocess
import tempfile
from pathlib import Path

from checks.comparers.programs import commands_of
from checks.comparers.verdicts import said_of
from checks.scenarios.folders import Fault, found_below, read
from checks.shared.grammars import grammar_of, text_of, tokens_of
from checks.shared.places import DATA, ROOTS
from checks.shared.running import ran

ANSWERS = DATA / "playground/answers.js"
LAST = 1_000_000
OUTCOMES = {1: "accepted at {steps}", 2: "rejected at token {token}", 3: "limit"}
ITEM = re.compile(r"[^' ][^ ]*:(?: |$)")
CONFLICTS = re.compile(r" conflicts \d+ \d+$")
SHOWN = re.compile(r"(\d+) (running|popping|accepted|failed)")


def in_node(room, page):
    """The program ystep over the module in a page, or at an address, as a file that can be run."""
    file = Path(room) / "ystep"
    words = shutil.which("node"), DATA / "playground/ystep.js", page
    file.write_text("#!/bin/sh\nexec {} {} {} \"$@\"\n".format(*map(str, words)))
    file.chmod(0o755)
    return str(file)


class Node:
    """A process of node over a file, which answers lines of JSON, one after another."""

    def __init__(self, script, file):
        words = ["node", str(script), str(file)]
        pipes = {"stdin": subprocess.PIPE, "stdout": subprocess.PIPE}
        self.process = subprocess.Popen(words, text=True, **pipes)

    def __enter__(self):
        """Itself."""
        return self

    def __exit__(self, *_):
        """Ends the process."""
        self.process.stdin.close()
        self.process.wait()
        self.process.stdout.close()

    def say(self, request):
        """What is answered to a request."""
        print(json.dumps(request), file=self.process.stdin, flush=True)
        line = self.process.stdout.readline()
        if not line:
            raise Fault(f"node ended on {request}")
        return json.loads(line)


class Module(Node):
    """The module in a page."""

    def __init__(self, page):
        super().__init__(ANSWERS, page)

    def ask(self, grammar, tokens="", commands="", shown=False):
        """What is answered of texts; `shown` says that `show` stands after each command line."""
        texts = {"grammar": grammar, "tokens": tokens, "commands": commands}
        return self.say(texts | {"shown": shown})

    def told(self, words, files, lines=""):
        """What ydebug says by its arguments, over files and a standard input, and its status."""
        return self.say({"words": words, "files": files, "input": lines})


def fault_line(answer):
    """The line of `ystep` on what a module refuses."""
    fault, status = answer["fault"], answer["status"]
    if status in (3, 4):
        return {3: "no memory", 4: "B1"}[status]
    letter, where = {1: ("G", "line"), 2: ("K", "place")}[status]
    at = f" at {'token' if where == 'place' else where} {fault[where]}" if fault[where] else ""
    return f"{letter}{fault['code']}{at}"


def said(answer):
    """What a module says to command lines, as `ystep` would."""
    return answer["replies"] if not answer["status"] else f"ystep: {fault_line(answer)}\n"


def verdict_line(verdict):
    """A verdict in words."""
    return OUTCOMES[verdict["outcome"]].format(**verdict)


def with_show(lines):
    """Command lines with `show` after each, as the page sends them."""
    return "".join(f"{line}\n" if line == "show" else f"{line}\nshow\n" for line in lines)


def parts_of(replies):
    """What is said before each `show`, and the five lines of that, as pairs."""
    lines, parts, before = replies.splitlines(), [], []
    while lines:
        if SHOWN.fullmatch(lines[0]):
            parts.append((before, lines[:5]))
            lines, before = lines[5:], []
        else:
            before.append(lines.pop(0))
    return parts


def wrong_replies(program, folder, answer, commands):
    """What differs from the replies of `ystep`."""
    made = ran([program, "grammar.y", "tokens"], folder, commands)
    wanted = made.stdout or made.stderr
    return [] if said(answer) == wanted else [f"ystep says\n{wanted}the module\n{said(answer)}"]


def wrong_verdict(program, folder, answer):
    """What differs from how far `ystep` comes."""
    made = ran([program, "grammar.y", "tokens"], folder, f"run {LAST}\n")
    wanted, found = said_of(made.stdout), verdict_line(answer["verdict"])
    return [] if wanted == found else [f"ystep comes to {wanted}, the verdict is {found}\n"]


def wrong_reading(answer):
    """What the page's script reads otherwise in the replies, or in the tokens."""
    shown = parts_of(answer["replies"])[-1][1]
    stack, rest = (line.split(":", 1)[1].split() for line in shown[1:3])
    wanted = {"place": int(shown[0].split()[0]), "stack": stack, "rest": rest}
    read = {it: answer["read"][it] for it in wanted}
    count, meant = len(answer["places"]), len(answer["tokens"]["symbols"])
    lines = [] if read == wanted else [f"{wanted} is written, {read} is read\n"]
    return lines + ([] if count == meant else [f"{meant} tokens are written, {count} read\n"])


def wrong_lines(module, texts, answer):
    """Where the lines lead to which the page's script cuts a session that ends with its trees."""
    lines = [*answer["read"]["lines"], "tree"]
    again = module.ask(*texts, with_show(lines))
    wanted, found = (parts_of(it["replies"])[-1] for it in (answer, again))
    return [] if found == wanted else [f"{lines} lead to {found}, and not to {wanted}\n"]


def report_counts(report):
    """How many rules, tokens, states, items, cells and conflicts a report writes."""
    head, _, states = report.partition("\nState 0\n")
    rules, tokens = re.split(r"^Unreachable\n(?:.*\n)*?Tokens$", head, flags=re.M)
    inner = [line[2:] for line in states.splitlines() if line.startswith("  ")]
    items = sum(bool(ITEM.match(line)) for line in inner)
    conflicts = sum(bool(CONFLICTS.search(line)) and not ITEM.match(line) for line in inner)
    return {"rules": rules.count("\n") - 1, "tokens": tokens.count("\n"),
            "states": int(re.search(r"^States (\d+)$", report, re.M)[1]), "items": items,
            "cells": len(inner) - items - conflicts, "conflicts": conflicts}


def wrong_report(answer):
    """What the page's script reads otherwise in a report."""
    wanted, found = report_counts(answer["report"]), answer["inReport"]
    return [] if wanted == found else [f"{wanted} is written, {found} is read\n"]


def wrong_answer(module, program, folder, rng):
    """What is wrong with the answers on one grammar, with tokens and command lines at random."""
    grammar = grammar_of(rng)
    texts = grammar.text, text_of(grammar, tokens_of(grammar, rng))
    for name, text in zip(("grammar.y", "tokens"), texts):
        (folder / name).write_text(text)
    commands = with_show([*commands_of(grammar, rng), "tree"])
    answer = module.ask(*texts, commands, shown=True)
    lines = wrong_replies(program, folder, answer, commands)
    if lines or answer["status"]:
        return lines
    lines = wrong_verdict(program, folder, answer) + wrong_reading(answer)
    return lines + wrong_lines(module, texts, answer) + wrong_report(answer)


def compare_drawn(page, program, count, tally, seed=1):
    """Grammars at random, with tokens and command lines, up to the first that is wrong."""
    rng, refused = random.Random(seed), 0
    with tempfile.TemporaryDirectory() as room, Module(page) as module:
        for number in range(count):
            lines = wrong_answer(module, program, Path(room), rng)
            tally.take(f"grammar {number}", lines)
            if lines:
                return


def reported():
    """The scenarios of `yacc` that leave a report, each with its grammar and that report."""
    for root in ROOTS:
        for folder in found_below(root):
            scenario = read(folder, root, False)
            report = next((it for it in scenario.wanted if it.endswith(".output")), None)
            if scenario.words[:1] == ["yacc"] and report:
                yield folder, scenario.inputs.get(scenario.words[-1]), scenario.wanted[report]


def compare_reports(page, tally):
    """The reports that the scenarios of `yacc` leave."""
    with Module(page) as module:
        for folder, grammar, report in reported():
            answer = module.ask((grammar or b"").decode("latin-1"))
            same = answer["report"] == report.decode()
            lines = wrong_report(answer) if same else ["another report\n"]
            tally.take(f"the report of {folder}", lines)
