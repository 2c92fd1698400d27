"""Runs scenarios with built programs."""
import os
import subprocess
import tempfile
from concurrent.futures import ThreadPoolExecutor
from contextlib import ExitStack, contextmanager

from checks.scenarios.folders import Fault, came_back, lay
from checks.shared.running import status_of

SECONDS = 60


class Endless(Fault):
    """That a program had not ended in its time."""


def lay_links(links, room):
    """Makes links in a folder."""
    for path, target in links.items():
        os.symlink(target, f"{room}/{path}")


def take_links(links, room):
    """Takes the links away, which have to stand as they were laid."""
    for path, target in links.items():
        file = f"{room}/{path}"
        if not os.path.islink(file) or os.readlink(file) != target:
            raise Fault(f"{path} is no link to {target} any more")
        os.unlink(file)


@contextmanager
def streams_of(scenario, room):
    """The streams of a run: pipes, and what the scenario names in their place."""
    how = {"input": scenario.stdin, "stdout": subprocess.PIPE, "stderr": subprocess.PIPE}
    with ExitStack() as stack:
        for name, path in scenario.streams.items():
            flag = os.O_RDONLY if name == "stdin" else os.O_WRONLY
            how[name] = os.open(os.path.join(room, path), flag)
            stack.callback(os.close, how[name])
        if "stdin" in how:
            del how["input"]
        yield how


def words_of(scenario):
    """The words of a scenario as bytes, after the name by which it calls the program."""
    words = [scenario.called or scenario.words[0], *scenario.words[1:]]
    return [it if isinstance(it, bytes) else it.encode(errors="surrogateescape") for it in words]


def ended(ran, room):
    """What came back of a run that has ended in a folder."""
    return came_back(ran.stdout or b"", ran.stderr or b"", status_of(ran.returncode), room)


def started(scenario, program, loader):
    """The words that start a program, by a loader where there is one, and the file that they run."""
    name, *words = words_of(scenario)
    if loader:
        return [*loader, "--argv0", name, program, *words], loader[0]
    return [name, *words], program


def run_in(room, scenario, program, prepare=lambda _: None, loader=(), **how):
    """What comes back of a scenario in a prepared folder, with other streams or limits."""
    lay(scenario.inputs, room)
    lay_links(scenario.links, room)
    prepare(room)
    with streams_of(scenario, room) as streams:
        how = {"cwd": room, "env": scenario.environment, "timeout": SECONDS, **streams, **how}
        if "stdin" in how:
            how.pop("input", None)
        words, file = started(scenario, program, loader)
        ran = subprocess.run(words, executable=file, **how)
    take_links(scenario.links, room)
    return ended(ran, room)


def run(scenario, program, loader=(), seconds=SECONDS):
    """What comes back of a scenario, or the fault that kept it from running."""
    with tempfile.TemporaryDirectory() as room:
        try:
            return run_in(room, scenario, program, loader=loader, timeout=seconds)
        except subprocess.TimeoutExpired:
            return Endless(f"it had not ended after {seconds} seconds")
        except (OSError, ValueError) as error:
            return Fault(f"{program} does not start: {error}")
        except Fault as fault:
            return fault


def run_all(scenarios, programs):
    """What comes back of each scenario, in their order."""
    with ThreadPoolExecutor(os.cpu_count()) as pool:
        chosen = [programs[it.words[0]] for it in scenarios]
        return list(pool.map(run, scenarios, chosen))
