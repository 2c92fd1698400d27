"""The own tests of packages: functions from a build to what each test comes to, by its name."""
import re

# A line such as `PASS: name` or `program: FAIL: 3`.
RESULT = re.compile(r"^(\w+: )?(PASS|FAIL|XPASS|XFAIL|SKIP|ERROR): (.+)$", re.M)
# A line of autotest's, such as ` 12: name ... ok`.
ENDS = "ok|FAILED|skipped|expected failure|UNEXPECTED PASS"
NUMBERED = re.compile(rf"^ *(\d+: .*?)[ \t]+({ENDS})(?: +\(.*\))?$", re.M)


def told_of(build, script, below=""):
    """What a script writes, without the folder's name."""
    return build.shell(script, below).stdout.replace(str(build.room), ".")


def lines_told(script, below, build):
    """The results that a script tells in lines."""
    found = RESULT.findall(told_of(build, script, below))
    return {program + name: result for program, result, name in found}


def numbered(scripts, build):
    """The results that autotest's scripts tell in lines, which aren't in order."""
    return {
        f"{it} {name}": result
        for it in scripts
        for name, result in NUMBERED.findall(told_of(build, it))
    }


def whole(scripts, build):
    """All that each of some scripts writes."""
    return {it: told_of(build, it) for it in scripts}


def made(paths, build):
    """Whether files were made."""
    return {it: build.has(it) for it in paths}


# --- awk: its tests compare two programs, and tell what differs below the name of each test.
AWK_NAME = re.compile(r"(?:=== )?((?:t|p|tt|T)\.[\w.-]+|[\w-]+\.awk)")
AWK_FAILED = re.compile(r"BAD|[Ff]ail|differ|^\s*[<>] ")
# It writes to a pipe that nobody reads any more, or that nobody has begun to read.
AWK_RACE = "BAD: T.misc exit status on I/O error"
AWK_TESTS = """PATH=.:$PATH oldawk=$PEER/a.out awk=../a.out sh REGRESS
cd ../bugs-fixed && bash REGRESS"""


def awk_tests(build):
    """What each test complains of."""
    found, name = {}, "before all"
    for line in told_of(build, AWK_TESTS, "testdir").splitlines():
        named = AWK_NAME.match(line)
        name = named[1] if named else name
        complaints = found.setdefault(name, [])
        if AWK_FAILED.search(line) and line != AWK_RACE:
            complaints.append(line)
    return {name: "\n".join(lines) for name, lines in found.items()}
