"""Refuses allocations of the debugger's sessions and commands, each once, and with all later ones.

    refuse-debugger [ydebug=PATH] [NAME..]

Each session below gives command lines over an example or a scenario. After every line stands a
mark, a command whose answer is known and takes no memory, and `where`. A run must end
with `ydebug: no memory`, status 3 and nothing on standard output, or go on: then each answer is as
usual for the parse as it stands, or says that there is no memory, and the parse after it is as it
was, or, after a move, where the steps that were told have led. A suggestion that is missing, or is
another one, fails. A command ends as usual, or with status 3 and `no memory` in place of lines or
after them. The last line is `N passed, M failed`.
"""
import os
import re
import shutil
import tempfile
from collections import Counter
from concurrent.futures import ProcessPoolExecutor
from functools import cache, partial
from pathlib import Path

from checks.memory.refuse import ALL
from checks.shared.arguments import asked
from checks.shared.libraries import REFUSED, library_in, refusing
from checks.shared.places import EXAMPLES, SCENARIOS
from checks.shared.running import ran
from checks.shared.tally import Tally

HERE = SCENARIOS / "ydebug"
QUERIES = EXAMPLES / "queries"
A_QUERY = QUERIES, ("grammar.y", "--lex", "queries.lex", "comma.sql")
# Each session: its folder, or that and its words, and its command lines.
SESSIONS = {
    "moves": (EXAMPLES / "statements", "s|s 5||back 2|to 12|r|b|to 3"),
    "until": (EXAMPLES / "statements", "run until conflict|back until shift ID|run until token 9"),
    "looks": (EXAMPLES / "statements", "to 21|stack|upcoming|state|state 3|rule 6|grammar|history"),
    "names": (EXAMPLES / "statements", "stpe|why|why IDD|symbol ELSE|symbol statment|insert ELES"),
    "expected": (EXAMPLES / "statements", "expected|to 21|expected|why ')'|run|expected"),
    "trees": (EXAMPLES / "statements", "to 21|tree|tree 3|derivation|run|tree all|derivation all"),
    "edits": (EXAMPLES / "statements", "insert '{'|s|drop|insert ID|s 3|back 4|drop|history"),
    "files": (EXAMPLES / "statements", "to 5|save one|save one|drop|save! one|save! two"),
    "reload": (EXAMPLES / "statements", "to 9|insert ';'|reload|s 2|reload"),
    "breaks": (EXAMPLES / "statements", "break shift ID|b ID|run|breaks|c|n|n 2|delete 1|finish|c"),
    "shown": (EXAMPLES / "statements", "to 21|explain|list|bt|errors|insert ID ';' ID|upcoming"),
    "recovery": (HERE / "recovery", "run until error|s 3|expected|run|tree|derivation|conflicts"),
    "texts": (A_QUERY, "where|s 3|run until error|upcoming|back 2|insert FROM|where|to 2|run"),
    "texts again": (A_QUERY, "to 9|drop|reload|expected|insert NAME|reload|history|run|tree all"),
}
# Each command: its folder and its words.
COMMANDS = {
    "check": (QUERIES, "check grammar.y --lex queries.lex open.sql comma.sql quote.sql"),
    "tokens": (QUERIES, "tokens grammar.y --lex queries.lex open.sql"),
    "sketch": (QUERIES, "lex-spec grammar.y"),
    "begun": (HERE / "init/help", "init sums"),
    "tests": (
        HERE / "test/passing",
        "test settings.y tests --lex settings.lex --messages settings.messages",
    ),
    "ungiven": (HERE / "lex", "check grammar.y --lex refused-ungiven/bad.lex good.sql"),
    "bison": (HERE / "from-bison", "check grammar.y tokens --from bison"),
    "bison text": (HERE / "from-bison", "tokens grammar.y --from bison --lex text/e.lex text/good"),
    "bison names": (HERE / "from-bison", "check grammar.y --from bison --lex text/e.lex text/bad"),
    "page": (HERE / "lex/page-places", "page grammar.y --lex sums.lex sums.txt -o page"),
    "bison page": (HERE / "from-bison", "page grammar.y tokens --from bison --conflicts -o page"),
    "sentences": (HERE / "sentences", "sentences grammar.y --cover actions --near"),
    "drawn": (HERE / "sentences", "sentences grammar.y --random 3"),
    "kept": (HERE / "sentences", "sentences odd.y --save lists"),
    "told": (HERE / "sentences", "sentences query.y --near --lex query.lex --save lists"),
    "cover": (HERE / "cover", "cover grammar.y one two"),
    "rules": (HERE / "rules", "rules grammar.y"),
    "header": (HERE / "rules", "rules grammar.y --header sums.h --python sums.py"),
    "name": (HERE / "rules/name-twice", "rules names.y"),
    "bison rules": (HERE / "rules/from-bison", "rules bison.y --from bison"),
    "accepted": (HERE / "accepted/list", "conflicts grammar.y --strict --accept known"),
    "accepted anew": (HERE / "accepted/update", "conflicts grammar.y --accept known --update"),
    "gcc": (HERE / "machine/gcc-list", "conflicts grammar.y --format gcc --accept known"),
    "json": (HERE / "machine/json-several", "conflicts grammar.y --format json"),
    "json check": (HERE / "machine/json-check", "check grammar.y good bad early --format json"),
    "errors": (HERE / "errors", "errors sums.y"),
    "complete": (HERE / "errors", "errors sums.y --messages incomplete/own --complete"),
    "update": (HERE / "errors", "errors sums.y --messages update/own --update"),
    "messages": (HERE / "check/messages", "check sums.y one two --messages sums.messages"),
    "data": (HERE / "errors/spelled-table", "errors grammar.y --messages own --table y.msg --from bison"),
    "told errors": (HERE / "errors/texts-without", "errors blocks.y --lex blocks.lex"),
    "told messages": (
        HERE / "check/messages-as-texts", "check sums.y one two --lex sums.lex --messages own"
    ),
}
# The folder of tests that a command reads.
TESTS = "tests"
# A line whose answer takes no memory, and that answer.
MARK = "help quit"
MARKED = re.compile(r"(?m)^  quit +ends the session, as the end of input does\n")
# What a move is, and where a parse stands.
MOVE = re.compile(r"(s|step|b|back|to|r|run|c|n|finish)( |$)")
PLACE = re.compile(r"^ *(\d+)  \S")
NO_MEMORY = "no memory"


def spelled(lines):
    """The lines of a session, each with its marks."""
    return "".join(f"{line}\n{MARK}\nwhere\n{MARK}\n" for line in lines).encode()


def file_of(folder, name):
    """The file of a name, in a folder or in the one above, which several scenarios share."""
    return next((it for it in (folder / name, folder.parent / name) if it.is_file()), None)


def run(ydebug, source, given, **more):
    """The status, both streams and the files of a run in a folder of its own."""
    folder, words = source if isinstance(source, tuple) else (source, ("grammar.y", "tokens"))
    with tempfile.TemporaryDirectory() as room:
        for name in words:
            if file := file_of(folder, name):
                Path(room, name).parent.mkdir(exist_ok=True)
                Path(room, name).write_bytes(file.read_bytes())
            elif name == TESTS:
                shutil.copytree(folder / name, f"{room}/{name}")
        made = ran([ydebug, *words], room, given, timeout=120, **more)
        files = {it.name: it.read_bytes() for it in Path(room).iterdir() if it.is_file()}
    return made.returncode, made.stdout.decode(), made.stderr.decode(), files


def answers(text):
    """The answer to each line and the place after it; none where marks are missing."""
    parts = MARKED.split(text)
    if len(parts) % 2 == 0 or parts[-1]:
        return None
    return list(zip(parts[:-1:2], parts[1::2]))


KNOWN = {}


def usual(ydebug, source, lines):
    """The answer to the last of some lines and the place after it, undisturbed."""
    key = source, *lines
    if key not in KNOWN:
        KNOWN[key] = answers(run(ydebug, source, spelled(lines))[1])[-1]
    return KNOWN[key]


def position_of(place):
    """The position that a line says, or none."""
    found = PLACE.match(place)
    return int(found[1]) if found else None


def is_told(answer, place, ydebug, source, obeyed, line):
    """The lines that lead to where the parse stands after a refused line; none where none do."""
    stays = [*obeyed] or ["to 0"]
    if usual(ydebug, source, [*stays, "where"])[1] == place:
        return obeyed
    position = position_of(place)
    if not MOVE.match(line) or position is None:
        return None
    moved = [*obeyed, f"to {position}"]
    return moved if usual(ydebug, source, moved)[1] == place else None


def as_moves(lines):
    """The lines, where one that repeats a move stands for that, also where it was refused."""
    last = ""
    for line in lines:
        last = "" if line == "reload" else line if line and MOVE.match(line) else last
        yield line or last


def fault_of(text, ydebug, source, lines):
    """What is wrong with what a session that went on has said; nothing where all is well."""
    made = answers(text)
    if made is None or len(made) != len(lines):
        return "a line isn't answered"
    obeyed = []
    for line, (answer, place) in zip(as_moves(lines), made):
        if (answer, place) == usual(ydebug, source, [*obeyed, line]):
            obeyed.append(line)
            continue
        if NO_MEMORY in place:
            return None if NO_MEMORY in answer else "where alone is refused"
        if NO_MEMORY not in answer:
            return f"{line!r} is answered otherwise: {answer!r} {place!r}"
        obeyed = is_told(answer, place, ydebug, source, obeyed, line)
        if obeyed is None:
            return f"after {line!r} the parse is another one: {answer!r} {place!r}"
    return None


def is_begun(text, usual):
    """Whether a text is a beginning of the usual one, or has `no memory` in place of lines."""
    lines, known = text.splitlines(), usual.splitlines()
    others = [it for it in lines if it not in known and not it.endswith(f": {NO_MEMORY}")]
    return usual.startswith(text) or not others


def laid(source):
    """The files that a run finds."""
    folder, words = source
    files = {it: file_of(folder, it) for it in words}
    return {it: file.read_bytes() for it, file in files.items() if file}


def way_of_command(made, wanted, before):
    """How a command has ended, and what is wrong with that, if anything is: without memory a file is
    what it was before, or what it is to become."""
    status, text, message, files = made
    if made == wanted:
        return "as usual", None
    told = message.removesuffix(f"ydebug: {NO_MEMORY}\n")
    begun = [is_begun(text, wanted[1]), wanted[2].startswith(told)]
    begun += [files[it] in (wanted[3].get(it), before.get(it)) or it == "page" for it in files]
    if status == 3 and NO_MEMORY in text + message and all(begun):
        return "end with no memory", None
    return "wrong", f"{status} {message}{text}"


@cache
def undisturbed(ydebug, source):
    """How a command ends as usual."""
    return run(ydebug, source, b"")


def refused_once(number, last, ydebug, source, lines, library):
    """How a run ended with some allocations refused, and how many it asked for."""
    given = spelled(lines) if lines else b""
    run_it = partial(run, ydebug, source, given)
    made, calls = refusing(number, last or number, library, run_it)
    if not lines:
        return *way_of_command(made, undisturbed(ydebug, source), laid(source)), calls
    status, text, message, _ = made
    if (status, text, message) == (3, "", "ydebug: no memory\n"):
        return "end with no memory", None, calls
    if status != 0 or message:
        return "wrong", f"status {status}: {message}", calls
    fault = fault_of(text, ydebug, source, lines)
    went_on = "go on and say no memory" if NO_MEMORY in text else "as usual"
    return "wrong" if fault else went_on, fault, calls


def refused_in_turn(name, from_there_on, ydebug, library, pool):
    """How the runs of a session or command ended, each with other allocations refused."""
    if name in SESSIONS:
        source, text = SESSIONS[name]
        lines = text.split("|")
    else:
        folder, text = COMMANDS[name]
        source, lines = (folder, tuple(text.split())), []
    given = dict(ydebug=ydebug, source=source, lines=lines, library=library)
    way, fault, calls = refused_once(0, 0, **given)
    ways = Counter({"wrong": 1} if way == "wrong" or not calls else {})
    once = partial(refused_once, last=ALL if from_there_on else 0, **given)
    for number, (way, fault, _) in enumerate(pool.map(once, range(1, calls + 1), chunksize=8), 1):
        ways[way] += 1
        if fault:
            print(f"{name}: allocation {number}{' and all after it' * from_there_on}: {fault}")
    said = ", ".join(f"{ways[way]} {way}" for way in sorted(ways))
    how = " and all after it" if from_there_on else ""
    print(f"{name}: {calls} allocations, each{how} refused: {said}", flush=True)
    return ways


def main(words):
    """Refuses allocations of sessions and commands one after the other."""
    given, whole = asked(__doc__, words, ("ydebug",)), Counter()
    with tempfile.TemporaryDirectory() as room, ProcessPoolExecutor(os.cpu_count()) as pool:
        library = library_in(room, REFUSED)
        for name in given.words or [*SESSIONS, *COMMANDS]:
            for from_there_on in (False, True):
                more = given.programs["ydebug"], library, pool
                whole += refused_in_turn(name, from_there_on, *more)
    return Tally(whole.total() - whole["wrong"], whole["wrong"]).end()
