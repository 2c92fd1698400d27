"""Opens pages of `ydebug page` in a headless browser, and compares them with `ystep`.

    pages [--install] [--shots FOLDER] [ydebug=PATH] [ystep=PATH]

The page of each example is stepped through by its keys, to the end and back: at each position the
stack, the upcoming tokens, the mode, the errors, the counter and the trees are those of `show` and
`tree`. What a page tells beside the steps is compared with `ydebug`. With --install Debian's
chromium and chromium-driver are installed by apt-get where they are missing; without it, a line
says that they are, and only the sources of the page are looked at. Screenshots are kept in FOLDER,
which is `screenshots` unless given. The last line is `N passed, M failed`.
"""
import json
import re
import shutil
import subprocess
import tempfile
import time
from pathlib import Path

from checks.pages.beside import (
    try_conflicts, try_drawing, try_expected, try_looks, try_text, try_words
)
from checks.pages.browser import Browser, Driver, Fault
from checks.pages.parts import after, before, scripts, style
from checks.shared.arguments import asked
from checks.shared.places import EXAMPLES, TOP
from checks.shared.running import ran
from checks.shared.tally import Tally

PACKAGES = {"chromium": "chromium", "chromedriver": "chromium-driver"}
# What the script and the style may not have: ways to run what comes from a file, and the network.
FORBIDDEN = r"innerHTML|outerHTML|insertAdjacent|document\.write|\beval\b|Function\(|https?:|url\("
MOST_STEPS = 20_000
# What is seen of a position. The trees have all their rows as they do for print, also those that
# are out of sight.
SEEN = """
dispatchEvent(new Event("beforeprint"));
const text = (id) => document.getElementById(id).textContent;
const all = (query) => [...document.querySelectorAll(query)];
const tokens = all("#tokens li[data-place]");
const ahead = tokens.findIndex((it) => it.hasAttribute("aria-current"));
const seen = {
  position: parseInt(text("place")),
  mode: text("mode"), errors: text("errors"), counter: text("counter"),
  stack: all("#stack .entry").map((it) => it.children[1].textContent).reverse(),
  rest: tokens.slice(ahead).filter((it) => !it.title.startsWith("the end"))
    .map((it) => it.textContent),
  tree: all("#tree [role=treeitem]").map((it) => [Number(it.ariaLevel),
    it.childNodes[1].textContent.trim(), it.childNodes[2].textContent.trim()]),
};
dispatchEvent(new Event("afterprint"));
return seen;"""


def missing():
    """The packages that aren't installed."""
    return [PACKAGES[it] for it in PACKAGES if not shutil.which(it)]


def install(packages):
    """Installs packages, and says whether that went well."""
    print(f"apt-get installs {' '.join(packages)}", flush=True)
    quiet = {"stdout": subprocess.DEVNULL, "stderr": subprocess.PIPE, "text": True}
    for words in (["update"], ["install", "-y", "--no-install-recommends", *packages]):
        try:
            made = subprocess.run(["apt-get", *words], **quiet)
        except OSError:
            print("There is no apt-get here: install chromium and chromedriver by hand.")
            return False
    if made.returncode:
        print(f"{made.stderr}apt-get can't install them: there may be no network, or no right to.")
    return made.returncode == 0


def lint_text(count, name, text):
    """The lines of a text are short and plain."""
    lines = text.splitlines()
    count.hold(f"{name}: under 500 lines", len(lines) < 500, len(lines))
    for number, line in enumerate(lines, 1):
        count.hold(f"{name}: line {number} has at most 100 columns", len(line) <= 100)
        count.hold(f"{name}: line {number} ends in no blank", line == line.rstrip())
        count.hold(f"{name}: line {number} is plain", not re.search(FORBIDDEN, line), line)


def lint(count):
    """The style and the script are small, plain, and take nothing from elsewhere."""
    lint_text(count, "style", style())
    for name, text in scripts().items():
        lint_text(count, name, text)


def make_page(ydebug, folder, words, target):
    """Makes a page, and gives what came back."""
    return ran([ydebug, "page", *words, "-o", str(target)], folder)


def replies(ystep, folder, lines):
    """What `ystep` replies to lines."""
    text = "".join(f"{line}\n" for line in lines)
    return ran([ystep, "grammar.y", "tokens"], folder, text).stdout


def tree_rows(line):
    """The rows of a tree: the level, and the rule, the token's name and place, or `error`."""
    level, rows = 1, []
    for piece in re.findall(r"\((\d+)|(\))|('(?:\\...|.)'@\d+|[^\s()]+)", line):
        if piece[0]:
            rows.append((level, piece[0]))
            level += 1
        elif piece[1]:
            level -= 1
        else:
            rows.append((level, piece[2]))
    return rows


def wanted_at(lines, position):
    """What `show` and `tree` say, as the page shows it."""
    number, mode = lines[0].split()
    names = {line.split(":")[0]: line.split(":")[1:] for line in lines[1:5]}
    after = {name: ":".join(rest).split() for name, rest in names.items()}
    return {
        "position": int(number), "mode": mode, "errors": after["errors"][0],
        "counter": after["counter"][0], "stack": after["stack"], "rest": after["rest"],
        "tree": [row for line in lines[5:] for row in tree_rows(line)],
    }


def wanted(ystep, folder, steps):
    """What `ystep` says of each position."""
    mark = "#"
    lines = ["show", "tree", mark]
    for _ in range(steps):
        lines += ["step", mark, "show", "tree", mark]
    parts = replies(ystep, folder, lines).split("unknown command\n")
    return [wanted_at(part.splitlines(), at) for at, part in enumerate(parts[:-1:2])]


def label(name, note):
    """What a row of the tree says, as `ystep` writes it."""
    rule = re.match(r"rule (\d+)", note)
    return rule[1] if rule else name + note


def seen(browser):
    """What is seen of the position."""
    found = browser.run(SEEN)
    found["tree"] = [(level, label(name, note)) for level, name, note in found["tree"]]
    return found


def compare(count, what, browser, want):
    """Compares a position with what is wanted."""
    found = seen(browser)
    for part in want:
        count.hold(f"{what}: {part} at {want['position']}", found[part] == want[part],
                   f"\n  shown {found[part]}\n  ystep {want[part]}")


def step_through(count, what, browser, want):
    """By the keys to the end and back, with the ends by home and end."""
    for position in want:
        if position["position"]:
            browser.press("right")
        compare(count, what, browser, position)
    for position in reversed(want[:-1]):
        browser.press("left")
        compare(count, f"{what}, back", browser, position)
    browser.press("end")
    compare(count, f"{what}, end", browser, want[-1])
    browser.press("right")
    compare(count, f"{what}, after the end", browser, want[-1])
    browser.press("home")
    compare(count, f"{what}, home", browser, want[0])


def whole(browser, path):
    """Keeps a picture of the whole page."""
    width = browser.run("return innerWidth")
    height = browser.run("return document.documentElement.scrollHeight")
    browser.size(width, min(height + 16, 4000))
    browser.shot(path)


def look(count, what, driver, url, shots):
    """Pictures of a page wide and narrow, light and dark; nothing is wider than the page."""
    for width, dark in ((1280, False), (1280, True), (360, False), (360, True)):
        with Browser(driver, width, 800, dark) as browser:
            browser.go(url)
            wide = browser.run("return document.documentElement.scrollWidth")
            count.hold(f"{what}: fits {width} pixels", wide <= width, wide)
            name = f"{what}-{width}-{'dark' if dark else 'light'}.png"
            whole(browser, shots / name)


def telling(want):
    """A position that tells most: after the last pop, or in the middle."""
    popping = [at for at, it in enumerate(want) if it["mode"] == "popping"]
    return popping[-1] if popping else len(want) // 2


def try_example(count, driver, programs, folder, room, shots):
    """An example: its page by bytes, stepped through, looked at."""
    ydebug, ystep = programs
    what, page = folder.name, room / f"{folder.name}.html"
    made = make_page(ydebug, folder, ["grammar.y", "tokens", "--conflicts"], page)
    count.hold(f"{what}: a page is made", made.returncode == 0 and page.is_file(), made.stderr)
    if not page.is_file():
        return
    text = page.read_text()
    framed = text.startswith(before()) and text.endswith(after())
    count.hold(f"{what}: the frame", framed)
    data = text[len(before()):len(text) - len(after())]
    count.hold(f"{what}: no < in the data", "<" not in data)
    steps = len(json.loads(data)["record"]["kinds"])
    want = wanted(ystep, folder, steps)
    count.hold(f"{what}: as many positions", len(want) == steps + 1, len(want))
    if len(want) != steps + 1:
        return
    with Browser(driver) as browser:
        browser.go(page.as_uri())
        step_through(count, what, browser, want)
        count.hold(f"{what}: no error in the script", not browser.errors())
    look(count, what, driver, f"{page.as_uri()}#{telling(want)}", shots)


def try_links(count, driver, page):
    """A link to a position, the one of the address, and the space key, which plays."""
    with Browser(driver) as browser:
        browser.go(f"{page.as_uri()}#2")
        count.hold("links: the page opens at #2", seen(browser)["position"] == 2)
        browser.press("left")
        time.sleep(0.6)
        count.hold("links: the address follows", browser.run("return location.hash") == "#1")
        browser.run("location.hash = '#3'")
        count.hold("links: a link moves", seen(browser)["position"] == 3)
        browser.press("home", "space")
        for _ in range(100):
            if seen(browser)["position"] == 3:
                break
            time.sleep(0.1)
        count.hold("keys: space plays to the end", seen(browser)["position"] == 3)


def try_reader(count, driver, page):
    """All that has the focus has a name, and the tree folds by its keys."""
    with Browser(driver) as browser:
        browser.go(page.as_uri() + "#9999")
        nodes = browser.command("Accessibility.getFullAXTree")["nodes"]
        focusable = [it for it in nodes if not it.get("ignored") and any(
            p["name"] == "focusable" and p["value"].get("value") for p in it.get("properties", []))]
        roles = {it["role"]["value"] for it in focusable}
        count.hold("reader: roles", {"button", "slider", "list", "tree"} <= roles, roles)
        for it in focusable:
            named = it.get("name", {}).get("value")
            count.hold(f"reader: a {it['role']['value']} has a name", named)
        rows = len(seen(browser)["tree"])
        browser.run("document.getElementById('tree').focus()")
        browser.press("home", "left")
        fewer = len(seen(browser)["tree"])
        count.hold("reader: left folds in the tree", fewer < rows, f"{rows} {fewer}")
        count.hold("reader: and makes no step", not browser.run(
            "return document.getElementById('place').textContent.startsWith('0')"))
        browser.press("right")
        count.hold("reader: right unfolds", len(seen(browser)["tree"]) == rows)


def try_escapes(count, driver, ydebug, room, shots):
    """What comes from a file is shown, and never run."""
    folder = room / "x<" / "script><script>alert(1)<" / "script>"
    folder.mkdir(parents=True)
    (folder / "grammar.y").write_text("%%\ns : '<' '\"' '&' '\\'' '\\\\' '\\n' ;\n")
    (folder / "tokens").write_text("'<' '\"' '&' '\\'' '\\\\' '\\n'\n")
    inner = folder.relative_to(room)
    page = room / "escapes.html"
    made = make_page(ydebug, room, [f"{inner}/grammar.y", f"{inner}/tokens"], page)
    count.hold("escapes: a page is made", made.returncode == 0, made.stderr)
    with Browser(driver) as browser:
        browser.go(page.as_uri())
        names = ["'<'", "'\"'", "'&'", "'\\047'", "'\\134'", "'\\012'"]
        count.hold("escapes: literals", seen(browser)["rest"] == names, seen(browser)["rest"])
        title = browser.run("return document.title")
        count.hold("escapes: paths", title == f"{inner}/tokens, parsed by {inner}/grammar.y", title)
        scripts = browser.run("return document.scripts.length")
        count.hold("escapes: no script but the page's own", scripts == 2, scripts)
        count.hold("escapes: no error in the script", not browser.errors())
        whole(browser, shots / "escapes.png")


def list_folder(room, tokens):
    """A list of tokens, which takes two steps for each, and two more."""
    folder = room / f"list{tokens}"
    folder.mkdir()
    (folder / "grammar.y").write_text("%token A\n%%\ns : list ;\nlist : A | list A ;\n")
    (folder / "tokens").write_text("A " * tokens)
    return folder


def opening(count, browser, page):
    """How many seconds it takes until a page shows its last position."""
    browser.go("about:blank")
    start = time.monotonic()
    browser.go(f"{page.as_uri()}#{MOST_STEPS}")
    position = browser.run("return parseInt(document.getElementById('place').textContent)")
    count.hold("long: the last position", position == MOST_STEPS, position)
    return time.monotonic() - start


def try_long(count, driver, ydebug, room, shots):
    """A page of 20,000 steps opens within two seconds, also one over a text; one of more is
    refused."""
    folder, page = list_folder(room, MOST_STEPS // 2 - 1), room / "long.html"
    (folder / "list.lex").write_text("A [a-z]+\n%skip \\s+\n")
    (folder / "text").write_text("word\n" * (MOST_STEPS // 2 - 1))
    for what, words in (("tokens", ["tokens"]), ("a text", ["--lex", "list.lex", "text"])):
        made = make_page(ydebug, folder, ["grammar.y", *words], page)
        count.hold(f"long: 20,000 steps over {what}", made.returncode == 0, made.stderr)
        with Browser(driver) as browser:
            taken = min(opening(count, browser, page) for _ in range(3))
            size = page.stat().st_size
            print(f"a page of 20,000 steps over {what}, {size} bytes, opens in {taken:.2f} seconds")
            count.hold(f"long: {what} within two seconds", taken < 2, taken)
            whole(browser, shots / "long.png")
    more, page = list_folder(room, MOST_STEPS // 2), room / "more.html"
    made = make_page(ydebug, more, ["grammar.y", "tokens"], page)
    refused = made.returncode == 1 and "--first" in made.stderr and not page.exists()
    count.hold("long: more are refused", refused, made.stderr)
    made = make_page(ydebug, more, ["grammar.y", "tokens", "--first", "9000", "--last", "9010"], page)
    count.hold("long: a part is shown", made.returncode == 0, made.stderr)
    with Browser(driver) as browser:
        browser.go(page.as_uri())
        begun = seen(browser)
        browser.press("end")
        ended = seen(browser)
        count.hold("long: a part from here to there",
                   (begun["position"], ended["position"]) == (9000, 9010))
        whole(browser, shots / "part.png")


# Twenty steps, back and forward by turns, with the page laid out after each.
STEPS = """
for (let step = 0; step < 20; step += 1) {
  const key = step % 2 ? "ArrowRight" : "ArrowLeft";
  document.dispatchEvent(new KeyboardEvent("keydown", { key }));
  document.body.getBoundingClientRect();
}"""

# A table of 500 rows, which is laid out anew twenty times.
TABLES = """
const table = document.body.appendChild(document.createElement("table"));
for (let time = 0; time < 20; time += 1) {
  table.innerHTML = "<tr><td>a token<td>its place</tr>".repeat(500);
  document.body.getBoundingClientRect();
}
table.remove();"""


def spent(browser):
    """The seconds of a processor that the page has taken so far."""
    metrics = browser.command("Performance.getMetrics")["metrics"]
    return next(it["value"] for it in metrics if it["name"] == "TaskDuration")


def least(browser, script):
    """The milliseconds of a processor for one of twenty turns of a script, the least of five."""
    found = []
    for _ in range(5):
        start = spent(browser)
        browser.run(script)
        found.append((spent(browser) - start) * 1000 / 20)
    return min(found)


def try_smooth(count, driver, ydebug, room):
    """A step over 1,000 tokens takes less than it takes the browser to lay out a table of 500 rows
    in the same minute: machines differ by more than a bound in seconds would bear."""
    folder, page = list_folder(room, 1000), room / "smooth.html"
    made = make_page(ydebug, folder, ["grammar.y", "tokens"], page)
    count.hold("smooth: a page is made", made.returncode == 0, made.stderr)
    with Browser(driver) as browser:
        browser.go(page.as_uri())
        browser.press("end")
        browser.command("Performance.enable", timeDomain="threadTicks")
        step, table = least(browser, STEPS), least(browser, TABLES)
        print(f"a step over 1,000 tokens takes {step:.1f} milliseconds, a table {table:.1f}")
        count.hold("smooth: a step over 1,000 tokens", 0 < step < table, f"{step} and {table}")


def attempt(count, what, deed, *given):
    """Does a part of the test; what the browser or a file refuses is a failure of that part."""
    try:
        deed(count, *given)
    except (Fault, OSError, ValueError) as fault:
        count.hold(what, False, fault)
    print(what, flush=True)


def try_all(count, programs, shots):
    """All parts of the test."""
    examples = sorted(it.parent for it in EXAMPLES.glob("*/grammar.y"))
    with tempfile.TemporaryDirectory() as name, Driver() as driver:
        room, ydebug = Path(name), programs[0]
        for folder in examples:
            attempt(count, folder.name, try_example, driver, programs, folder, room, shots)
        attempt(count, "links and keys", try_links, driver, room / "one-rule.html")
        attempt(count, "readers of screens", try_reader, driver, room / "statements.html")
        attempt(count, "escapes", try_escapes, driver, ydebug, room, shots)
        attempt(count, "long parses", try_long, driver, ydebug, room, shots)
        attempt(count, "smooth steps", try_smooth, driver, ydebug, room)
        attempt(count, "texts", try_text, driver, ydebug, room, shots)
        attempt(count, "words", try_words, driver, ydebug, room, shots)
        attempt(count, "what was expected", try_expected, driver, ydebug, room, shots)
        attempt(count, "lookaheads", try_looks, driver, ydebug, room)
        attempt(count, "drawings", try_drawing, driver, ydebug, room, shots)
        attempt(count, "conflicts", try_conflicts, driver, ydebug, room, shots)


def main(words):
    """Looks at the pages of all examples."""
    options = {"install": False, "shots": TOP / "screenshots"}
    given, count = asked(__doc__, words, ("ydebug", "ystep"), **options), Tally()
    lint(count)
    packages = missing()
    if packages and not given.install:
        print(f"skipped: no {' and no '.join(packages)}; make page-test installs what is missing")
        return count.end()
    if packages and not install(packages):
        return 1
    given.shots.mkdir(exist_ok=True)
    try_all(count, [given.programs[it] for it in ("ydebug", "ystep")], given.shots)
    print(f"screenshots are in {given.shots.name}/")
    return count.end()
