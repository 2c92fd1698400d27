"""Shows how what came back differs from what is wanted, as `diff -u` does."""
from difflib import unified_diff


def lines_of(text, escape):
    """Lines to show, with what is no text escaped."""
    shown = ascii(text)[2:-1].replace("\\n", "\\n\n") if escape else None
    lines = (shown or text.decode(errors="backslashreplace")).split("\n")
    ended = [f"{line}\n" for line in lines[:-1]]
    return ended + [f"{lines[-1]}\n\\ No newline at end of file\n"] * bool(lines[-1])


def shown(name, wanted, made, escape=False):
    """The difference of two texts, of which either may be absent."""
    if wanted is None or made is None:
        yield f"{name}: {'not wanted' if wanted is None else 'missing'}\n"
    texts = [lines_of(it or b"", escape) for it in (wanted, made)]
    lines = list(unified_diff(*texts, f"wanted/{name}", f"made/{name}"))
    if not lines and wanted and made:
        lines = shown(name, wanted, made, escape=True)
    yield from lines


def differences(wanted, made):
    """The lines that show how two sets of named texts differ; none where they are equal."""
    for name in sorted(wanted.keys() | made.keys()):
        if wanted.get(name) != made.get(name):
            yield from shown(name, wanted.get(name), made.get(name))
