"""What a check says of functions: which goals of a function itself stay open.

A goal is a function's own where a note names a place in the function, or an error a place in the
function's own proof files; so is a proof that the prover asks for. That a callee isn't proved, or
that a proof file names what is no longer there, is none.
"""
import re

LINE = re.compile(r"fn (\S+): (.*)")
PLACE = re.compile(r"(note: )?(?:\./)?((?:src|specs|proofs)/\S+?):(\d+):\d+: (.*)")
CALLEE = "it calls "
LOST = re.compile(r"has no field|is not in scope|has no `|was not admitted")
# What is said of a text of src/ that can't be read, as rt has it; of a goal another thing is said.
GOAL = re.compile(r"error: `[^`]*`: ")
UNREAD = re.compile(
    r"is not in scope|has no field|is no name|operand is missing|expected the end|cannot continue"
)
NO_CONTRACT = "antt did not admit its contract"
NO_COMPILE = re.compile(r"\berror\[[\w-]+\]")
STALE = re.compile(r"Run the lower steps again")
NO_NAME = "has no function `"


def holder_of(name):
    """The path of a function that ends in `::`; that of a closure begins with its function's."""
    return f"{name}::".replace("::fn::", "::").removeprefix("fn::")


def is_unread(text):
    """Whether an error in a source file says that its text can't be read."""
    return not GOAL.match(text) or bool(UNREAD.search(re.sub(r"`[^`]*`", "", text)))


class Said:
    """What a check said, by the functions and places that its lines name."""

    def __init__(self, text, crate):
        self.lines = text.rstrip("\n").split("\n")
        self.places = [found for it in self.lines if (found := PLACE.match(it))]
        told = [found for it in self.lines if (found := LINE.match(it))]
        self.functions = {it[1].removeprefix(f"{crate}::"): it[2] for it in told}

    @property
    def is_told(self):
        """Whether the check came so far that it tells of functions."""
        return bool(self.functions)

    def compile_errors(self):
        """The lines of what didn't compile, each with its place where it has one."""
        found = [it for it in self.lines if NO_COMPILE.search(it)]
        return [(it, PLACE.match(it)) for it in found]

    def is_open(self, name):
        """Whether a function isn't proved."""
        return self.functions.get(name, "").startswith(("not proved", "no proof"))

    def reasons(self, name):
        """What the function's line says of itself, except its callees."""
        told = self.functions.get(name, "").partition(": ")[2]
        return [it for it in told.split("; ") if it and not it.startswith(CALLEE)]

    def notes(self, function):
        """What is said of goals at places in the function."""
        here = [
            it
            for it in self.places
            if it[2] == function.path and function.has(int(it[3]) - 1)
        ]
        return [
            f"{it[2]}:{it[3]}: {it[4]}"
            for it in here
            if it[1] or it[4].startswith("error: ") and not is_unread(it[4])
        ]

    def errors(self, name):
        """Errors in the function's own proof files."""
        home = f"proofs/{name.replace('::', '/')}/"
        return [
            f"{it[2]}:{it[3]}: {it[4]}"
            for it in self.places
            if not it[1] and it[2].startswith(home) and it[4].startswith("error")
        ]

    def unread(self, paths):
        """Errors that the prover tells in a source file, so that no contract was tried."""
        return [
            it[0]
            for it in self.places
            if not it[1] and it[2] in paths and re.match(r"error\b", it[4]) and is_unread(it[4])
        ]

    def open_goals(self, function):
        """The goals of a function itself that stay open, each as the check tells it."""
        if not self.is_open(function.name):
            return []
        errors = [it for it in self.errors(function.name) if not LOST.search(it)]
        reasons = [it for it in self.reasons(function.name) if NO_CONTRACT not in it]
        return self.notes(function) + errors + reasons

    def lost_names(self, function):
        """What the function's proof files name, and the edit took away."""
        return [it for it in self.errors(function.name) if LOST.search(it)]

    def strays(self, functions):
        """The functions except some, and closures in them, that aren't proved for reasons of their
        own."""
        known = tuple(f"{it.name}::" for it in functions)
        return [
            name
            for name in self.functions
            if not holder_of(name).startswith(known) and self.is_open(name) and self.has_own(name)
        ]

    def has_own(self, name):
        """Whether an open function's line or its proof files say more than what it calls."""
        return bool(self.reasons(name) or [it for it in self.errors(name) if not LOST.search(it)])
