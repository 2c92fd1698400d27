"""The commands of this program, in groups, and the module of each."""
import sys
from importlib import import_module

GROUPS = {
    "scenarios, and what runs beside them": {
        "scenarios": "scenarios.run",
        "scenario": "scenarios.one",
        "readers": "scenarios.readers",
        "hostile": "hostile.run",
        "refuse": "memory.refuse",
        "allocations": "memory.allocations",
    },
    "comparisons with machines in Python": {
        "compare": "comparers.programs",
        "conflicts": "comparers.conflicts",
        "ambiguities": "comparers.ambiguities",
        "documents": "comparers.documents",
        "hints": "comparers.hints",
        "choices": "comparers.choices",
        "texts": "comparers.texts",
        "verdicts": "comparers.verdicts",
        "coverage": "comparers.coverage",
        "errors": "comparers.errors",
        "faults": "comparers.faults",
        "reader": "shared.reader",
    },
    "the debugger": {
        "refuse-debugger": "debugger.refuse",
        "babble": "debugger.babble",
        "terminal": "debugger.terminal",
        "keys": "debugger.keys",
        "pages": "pages.test",
        "page-sums": "pages.sums",
        "editors": "editors.run",
        "babble-server": "editors.babble",
    },
    "parsers and drivers": {
        "parsers": "parsers.parsers",
        "policies": "parsers.policies",
        "classes": "parsers.classes",
        "drivers": "parsers.drivers",
    },
    "the library": {
        "library": "library.run",
        "playground": "playground.run",
    },
    "bison, byacc, and packages that use them": {
        "features": "peers.features",
        "builds": "peers.builds",
        "begun": "peers.begun",
        "packages": "peers.packages",
        "drawn": "peers.drawn",
        "cells": "peers.cells",
        "imports": "peers.imports",
    },
    "times": {
        "bench": "times.programs",
        "bench-parsers": "times.parsers",
        "bench-classes": "times.classes",
        "bench-drivers": "times.drivers",
        "bench-handles": "times.handles",
        "bench-edits": "times.edits",
        "bench-grammar": "times.grammars",
        "sentence": "shared.sentences",
        "numbers": "times.traced",
        "proof-times": "times.proofs",
    },
    "the repository": {
        "gate": "gate.gate",
        "quick": "gate.quick",
        "selftest": "gate.selftest",
        "rings": "gate.rings",
        "fault-words": "gate.words",
        "trace": "gate.trace",
        "mutants": "gate.mutants",
        "install": "gate.install",
    },
}
USAGE = "python3 -m checks COMMAND ..\npython3 -m checks COMMAND --help\n"


def modules():
    """The module of each command."""
    return {name: it for group in GROUPS.values() for name, it in group.items()}


def module_of(name):
    """The module of a command, loaded."""
    return import_module(f"checks.{modules()[name]}")


def overview():
    """All commands with the first line of what each says of itself."""
    yield USAGE
    for title, group in GROUPS.items():
        yield f"\n{title}\n"
        for name in group:
            yield f"  {name:16}{module_of(name).__doc__.splitlines()[0]}\n"


def main(words):
    """Runs a command, or says which there are."""
    name, *rest = words or [""]
    if name in ("--help", "-h", "help"):
        sys.stdout.writelines(overview())
        return 0
    if name not in modules():
        sys.stderr.write(f"there is no command {name}\n{USAGE}")
        return 2
    if rest in (["--help"], ["-h"]):
        print(module_of(name).__doc__)
        return 0
    return module_of(name).main(rest) or 0
