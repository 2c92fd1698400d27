"""Texts that `ydebug` writes for lists of tokens, which a lexer in Python must cut into these."""
import re

from checks.shared import running

COUNT = re.compile(r"# a text of (\d+) lines?:")
VERDICT = re.compile(r".*: (accepted after|rejected at token) (\d+)\b.*")
# A block of a listing: its input, where there is one, and its tokens.
BLOCK = re.compile(r"(?m)^(?:(?!#)(.+)\n## tokens  |## no text )( .*\n(?:##          .*\n)*)## state")


def run(folder, *words):
    """The status and both streams of a run."""
    ran = running.ran(words, folder, b"")
    return ran.returncode, ran.stdout.decode(), ran.stderr.decode()


def lists_in(out):
    """The comment before each list that is written, its text, and where that is none its tokens."""
    lines, said = iter(out.splitlines()), ""
    for line in lines:
        count = COUNT.fullmatch(line)
        if count:
            yield said, "\n".join(next(lines) for _ in range(int(count[1]))), None
        elif line.startswith("# no text:"):
            yield said, None, line[10:].lstrip(" ")
        elif line.startswith("#"):
            said = line
        else:
            yield said, line, None


def names_in(spec, text):
    """The names of the tokens of a text; none where nothing matches in it."""
    tokens, _ = spec.cut(text.encode())
    return None if tokens is None else " ".join(spec.grammar.names[it] for it, _ in tokens)


def fault_of_lists(folder, ydebug, spec, counts):
    """What is wrong with texts of sentences; nothing where each has the tokens of the sentence."""
    status, plain, message = run(folder, ydebug, "sentences", "grammar.y")
    lists = [line for line in plain.splitlines() if not line.startswith("#")]
    status, out, message = run(folder, ydebug, "sentences", "grammar.y", "--lex", "spec")
    written = list(lists_in(out))
    if status or message or len(written) != len(lists):
        return f"sentences: {status} {message}{out} and not {plain}"
    for tokens, (_, text, named) in zip(lists, written):
        counts["sentences as texts"] += text is not None
        counts["sentences without a text"] += text is None
        found = named if text is None else names_in(spec, text)
        if found != tokens:
            return f"sentences: {text!r} has {found} and not {tokens}"
    return None


def fault_of_near(folder, ydebug, spec, parsed, counts):
    """What is wrong with texts near to sentences; nothing where each has the verdict of its own."""
    words = ("sentences", "grammar.y", "--near", "--lex", "spec")
    status, out, message = run(folder, ydebug, *words)
    if status or message:
        return f"near: {status} {message}"
    for said, text, _ in lists_in(out):
        told = VERDICT.fullmatch(said)
        if not told or text is None:
            continue
        tokens, _ = spec.cut(text.encode())
        ended = tokens is not None and parsed([it for it, _ in tokens])
        if ended is None:
            continue
        counts["texts near to sentences"] += 1
        taken, steps, good = ended or (0, 0, False)
        wanted = ("accepted after", steps) if good else ("rejected at token", taken + 1)
        if (told[1], int(told[2])) != wanted:
            return f"near: {text!r} has {wanted} and not {said}"
    return None


def input_in(spec, line):
    """The names of the tokens of an input of a file of messages."""
    if line == "$end":
        return line
    if line.endswith(" $end"):
        return f"{names_in(spec, line.removesuffix(' $end'))} $end"
    return names_in(spec, line)


def fault_of_messages(folder, ydebug, spec, counts):
    """What is wrong with a listing of errors; nothing where its texts have the tokens that are told,
    and it is taken as a file of messages, which stays as it is when it is written anew, except the
    order of states without a text."""
    status, out, message = run(folder, ydebug, "errors", "grammar.y", "--lex", "spec")
    blocks = [(it[1], " ".join(it[2].replace("\n##", " ").split())) for it in BLOCK.finditer(out)]
    if status or message or len(blocks) != out.count("\n## state "):
        return f"errors: {status} {message}{out}"
    inputs = [it for it in blocks if it[0] is not None]
    for line, tokens in inputs:
        if input_in(spec, line) != tokens:
            return f"errors: {line!r} has {input_in(spec, line)} and not {tokens}"
    counts["inputs as texts"] += len(inputs)
    counts["inputs without a text"] += len(blocks) - len(inputs)
    (folder / "made").write_text(out)
    words = ("errors", "grammar.y", "--messages", "made", "--lex", "spec")
    complete = len(inputs) == len(blocks)
    count = f"made: {len(inputs)} input{'s' * (len(inputs) != 1)}"
    taken = run(folder, ydebug, *words, *["--complete"] * complete)
    if taken != (0, f"{count}{', complete' * complete}\n", ""):
        return f"messages: {taken}"
    renewed = run(folder, ydebug, *words, "--update")
    stays = (folder / "made").read_text() == out
    if renewed[0] or renewed[2] or complete and not stays:
        return f"messages anew: {renewed}"
    return None


def fault_of_written(folder, ydebug, spec, parsed, counts):
    """What is wrong with the texts that are written for a grammar; nothing where all is well."""
    return (
        fault_of_lists(folder, ydebug, spec, counts)
        or fault_of_near(folder, ydebug, spec, parsed, counts)
        or fault_of_messages(folder, ydebug, spec, counts)
    )
