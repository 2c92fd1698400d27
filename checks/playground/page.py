"""The page of the playground in a headless browser: what a person does there, and what is shown."""
import base64
import json
import re
import time

from checks.pages.browser import Browser, Driver
from checks.pages.firefox import Firefox
from checks.playground.course import blocks_of, lessons_of
from checks.playground.module import Module, parts_of, verdict_line, with_show
from checks.shared.grammars import dense
from checks.shared.places import COURSE, EXAMPLES

SECONDS = 30
FAR, AHEAD = 10_000, 200
NUM = "%token NUM\n%%\nlist : | list NUM ';' ;\n"
# What is seen of a parse.
SEEN = """
const text = (id) => document.getElementById(id).textContent;
const names = (id) => [...document.querySelectorAll(`#${id} li`)]
  .map((it) => it.firstChild.textContent);
return { place: parseInt(text("place")), stack: names("stack").slice(1),
  rest: names("rest").slice(0, -1),
  states: [...document.querySelectorAll("#stack small")].map((it) => Number(it.textContent)),
  now: [...document.querySelectorAll(".card.now h3")].map((it) => it.textContent),
  tree: [...document.querySelectorAll("#tree [aria-level]")].map((it) =>
    [it.ariaLevel - 1, it.childNodes[0].textContent, it.childNodes[1].textContent.trim()]) };
"""
# What a person who doesn't see the page is told each thing is called.
NAMELESS = """
const named = (it) => it.labels && it.labels.length || it.ariaLabel || it.textContent.trim()
  || it.getAttribute("aria-labelledby");
return [...document.querySelectorAll("button, input, select, textarea, [tabindex], summary")]
  .filter((it) => !named(it)).map((it) => it.outerHTML.slice(0, 80));
"""
DROP = """
const [query, files] = arguments, data = new DataTransfer();
for (const [name, text] of files) data.items.add(new File([text], name));
for (const kind of ["dragover", "drop"]) document.querySelector(query).dispatchEvent(
  new DragEvent(kind, { dataTransfer: data, bubbles: true, cancelable: true }));
"""


class Page:
    """The page in a browser."""

    def __init__(self, browser, url):
        self.browser = browser
        browser.go(url)
        self.wait()

    def wait(self, script="return !document.body.classList.contains('busy')"):
        """Waits until a script says so, and else until nothing is asked any more."""
        end = time.monotonic() + SECONDS
        while time.monotonic() < end:
            if self.browser.run(script):
                return
            time.sleep(0.01)
        raise TimeoutError(f"not within {SECONDS} seconds: {script}")

    def text(self, name):
        """The text of a thing by its name."""
        return self.browser.run("return document.getElementById(arguments[0]).textContent", name)

    def value(self, name):
        """What stands in a field."""
        return self.browser.run("return document.getElementById(arguments[0]).value", name)

    def click(self, name):
        """Presses a button."""
        self.browser.run("document.getElementById(arguments[0]).click()", name)
        self.wait()

    def type(self, name, text, at=None):
        """Types a text into a field, at a place or at its end."""
        self.browser.run("""const [name, at] = arguments, it = document.getElementById(name);
            it.focus();
            it.setSelectionRange(at ?? it.value.length, at ?? it.value.length);""", name, at)
        self.browser.insert(text)
        self.wait()

    def write(self, name, text):
        """Puts a text in the place of what stands in a field."""
        self.browser.run("document.getElementById(arguments[0]).select()", name)
        self.browser.insert(text)
        self.wait()

    def choose(self, name):
        """Chooses an example."""
        self.browser.run("""const it = document.getElementById("examples");
            it.value = arguments[0]; it.dispatchEvent(new Event("change"));""", name)
        self.wait()

    def press(self, *names):
        """Presses keys outside of all fields."""
        self.browser.run("document.activeElement.blur()")
        self.browser.press(*names)
        self.wait()

    def drop(self, query, *files):
        """Drops files, each a name and a text, on something."""
        self.browser.run(DROP, query, files)
        time.sleep(0.1)
        self.wait()

    def all(self, query):
        """The texts of all that a query finds."""
        return self.browser.run("return [...document.querySelectorAll(arguments[0])]"
                                ".map((it) => it.textContent)", query)

    def seen(self):
        """What is seen of the parse."""
        return self.browser.run(SEEN)

    def texts(self):
        """The grammar and the tokens."""
        return self.value("grammar"), self.value("tokens")


def wanted(module, texts, lines):
    """What `show` and `tree` say after command lines."""
    said, shown = parts_of(module.ask(*texts, with_show([*lines, "tree"]))["replies"])[-1]
    stack, rest = (line.split(":", 1)[1].split() for line in shown[1:3])
    return {"place": int(shown[0].split()[0]), "stack": stack, "rest": rest}, said


def rows_of(lines):
    """The rows of trees: the depth, and the rule, or the token with its place."""
    rows = []
    for line in lines:
        depth = 0
        for rule, end, leaf in re.findall(r"\((\d+)|(\))|('(?:\\...|.)'@\d+|[^\s()]+)", line):
            if end:
                depth -= 1
                continue
            rows.append([depth, rule] if rule else [depth, *leaf.split("@")])
            depth += bool(rule)
    return rows


def shown_rows(rows):
    """The rows of trees as the page shows them, in the same form."""
    return [[depth, note.split(":")[0]] if ":" in note else [depth, name, *([note] if note else [])]
            for depth, name, note in rows]


def compare(count, what, page, module, lines):
    """Compares what is seen with what `show` and `tree` say after command lines."""
    seen, (want, tree) = page.seen(), wanted(module, page.texts(), lines)
    for part in want:
        count.hold(f"{what}: {part} after {lines[-1]}", seen[part] == want[part],
                   f"\n  shown {seen[part]}\n  said {want[part]}")
    rows = shown_rows(seen["tree"])
    count.hold(f"{what}: trees after {lines[-1]}", rows == rows_of(tree), f"{rows}\n{tree}")
    states, now = seen["states"], seen["now"]
    count.hold(f"{what}: a state each", len(states) == len(want["stack"]) + 1, states)
    count.hold(f"{what}: the state on top", set(now) == {f"State {states[-1]}"}, now)
    return seen


def verdict_words(verdict):
    """The words of a verdict with which the page begins."""
    return {1: "Accepted: a sentence, in {steps} steps.", 2: "Rejected at ", 3: "Neither "}[
        verdict["outcome"]].format(**verdict)


def step_through(count, page, module, name):
    """An example by its keys to the end and back."""
    page.choose(name)
    said, wanted_words = page.text("verdict"), verdict_words(module.ask(*page.texts())["verdict"])
    count.hold(f"{name}: the verdict", said.startswith(wanted_words), said)
    last = compare(count, name, page, module, [f"run {FAR}"])["place"]
    page.press("home")
    compare(count, name, page, module, ["to 0"])
    for place in range(1, last + 1):
        page.press("right")
        compare(count, name, page, module, [f"to {place}"])
    page.press("left", "left")
    compare(count, f"{name}, back", page, module, [f"to {max(last - 2, 0)}"])


def report_blocks(report):
    """The blocks of a report on conflicts: the lines that begin with a place, and those after."""
    return re.split(r"\n(?=grammar\.y:\d)", report.replace("\n\n", "\n").rstrip("\n"))


def card_of(block):
    """A block as its card has it: without its place and its indent."""
    first, *rest = block.split("\n")
    place, said = re.fullmatch(r"grammar\.y:(\d+(?::\d+)?): warning: (.*)", first).groups()
    place = place if ":" in place else f"line {place}"
    return "".join([f"{said} {place}", "\n".join(re.sub("^  ", "", it) for it in rest)])


def try_conflicts(count, page, module):
    """Conflicts as `ydebug conflicts` tells them; one goes by its hint."""
    page.choose("statements")
    states = re.findall(r"^State (\d+)$", module.ask(*page.texts())["report"], re.M)
    shown = page.all("#states h3")
    count.hold("all states", shown == [f"State {it}" for it in states], shown)
    grammar = page.value("grammar")
    said = module.told(["conflicts", "grammar.y"], {"grammar.y": grammar})["out"]
    head, *blocks = report_blocks(said)
    cards = page.all("#conflicts .card")
    count.hold("conflicts", cards == [card_of(it) for it in blocks] and len(cards) == 1, cards)
    causes = page.text("causes")
    count.hold("their counts", causes == head.replace("grammar.y: ", ""), causes)
    count.hold("its hint", "name ELSE and ')' on two lines" in cards[0], cards)
    page.type("grammar", "%nonassoc ')'\n%nonassoc ELSE\n", 0)
    count.hold("the hint followed", page.text("counts") == "No conflicts.", page.text("counts"))
    count.hold("no conflict is left", page.all("#conflicts .card") == [], page.all("#conflicts"))
    page.write("grammar", grammar)
    counts = page.text("counts")
    count.hold("its return", counts == "Conflicts: 1 shift/reduce, 0 reduce/reduce.", counts)


def try_reasons(count, page, module):
    """Why cells say what they say: of the state on top at the token ahead, and of another one."""
    page.choose("statements")
    page.press("home", "right")
    grammar, rest = page.value("grammar"), page.seen()["rest"]
    asks = ("why-here", page.seen()["states"][-1], rest[0]), ("why-there", 33, "ELSE")
    page.browser.run("[...document.querySelectorAll('#state-33 .why')]"
                     ".find((it) => it.textContent === 'ELSE').click()")
    page.wait()
    for name, state, token in asks:
        files = {"grammar.y": grammar, "none": ""}
        said = module.told(["grammar.y", "none"], files, f"why {state} {token}\n")["out"]
        shown = page.text(name)
        count.hold(f"{name}: {state} on {token}", shown == said.rstrip("\n"), f"{shown}\n{said}")
        count.hold(f"{name}: its cell", shown.startswith(f"state {state} on {token}: "), shown)


def try_texts(count, page, module):
    """A text with its SPEC: a mistake at its place, then without it, and what is no token."""
    page.choose("queries: comma.sql")
    texts = {it: page.value(it) for it in ("grammar", "tokens", "spec")}
    files = {"grammar.y": texts["grammar"], "input": texts["tokens"], "spec": texts["spec"]}
    words = ["grammar.y", "--lex", "spec", "input"]
    said = module.told(["check", *words], files)["out"]
    line, column = map(int, re.match(r"input:(\d+):(\d+): error: unexpected FROM", said).groups())
    shown = page.text("check")
    count.hold("what was expected", shown == said.removeprefix("input: ").rstrip("\n"), shown)
    top = page.browser.run("return document.querySelector('#tokens-editor .bubble').style.top")
    count.hold("the place of the mistake", top == f"{20 * line}px", f"{top} {line}:{column}")
    count.hold("the verdict of a text", page.text("verdict").startswith("Rejected at token "),
               page.text("verdict"))
    tokens = module.told(["tokens", *words], files)["out"].split()
    page.press("home")
    count.hold("its tokens", page.seen()["rest"] == tokens, f"{page.seen()['rest']}\n{tokens}")
    page.write("tokens", "SELECT ? FROM x;")
    said = page.text("tokens-fault")
    count.hold("no token", said.startswith("input:1:8: no line of the SPEC matches here"), said)
    page.choose("statements")
    page.browser.run("document.getElementById('looks').open = true")
    page.click("sketch")
    sketch = module.told(["lex-spec", "grammar.y"], {"grammar.y": page.value("grammar")})["out"]
    count.hold("a sketch", page.value("spec") == sketch, page.value("spec"))
    page.click("plain")
    count.hold("no SPEC", page.value("spec") == "", page.value("spec"))


def try_page(count, page, module):
    """The page of `ydebug page` in its frame, and a command line of `ydebug`."""
    page.choose("calculator")
    page.browser.run("document.getElementById('paged').open = true")
    time.sleep(0.05)
    page.wait()
    grammar, tokens = page.texts()
    files = {"grammar.y": grammar, "input": tokens}
    made = module.told(["page", "grammar.y", "input", "--conflicts"], files)["out"]
    data = re.search(r'<script[^>]* id="data"[^>]*>(.*?)</script>', made, re.S)[1]
    with page.browser.inside("#page"):
        count.hold("the page of the parse", page.text("data") == data, page.text("data"))
        title = page.text("title")
        count.hold("its title", title == "input, parsed by grammar.y", title)
        page.browser.run("document.getElementById('on').click()")
        place = page.text("place")
        count.hold("a step in it", place.startswith("1 of "), place)
    page.browser.run("document.getElementById('paged').open = false")
    page.browser.run("document.getElementById('asked').open = true")
    page.write("told-line", "errors grammar.y")
    page.browser.run("document.getElementById('words').requestSubmit()")
    page.wait()
    said = module.told(["errors", "grammar.y"], files)
    both = "\n".join(filter(None, (said["out"], said["errors"]))).rstrip()
    count.hold("a line of ydebug", page.text("told") == both and both, page.text("told"))


def try_faults(count, page, module):
    """A fault is shown below its line as it is typed, and goes away with it."""
    page.choose("statements")
    grammar, tokens = page.texts()
    place = grammar.index("RETURN expression") + len("RETURN ")
    page.type("grammar", "x", place)
    fault = module.ask(*page.texts())["fault"]
    said = page.text("grammar-fault")
    count.hold("a fault", said.startswith(f"G{fault['code']} at line {fault['line']}: "), said)
    top = page.browser.run("return document.querySelector('#grammar-editor .bubble').style.top")
    count.hold("below its line", top == f"{20 * fault['line']}px", top)
    at = page.text("grammar-editor")
    count.hold("the number of its line", page.browser.run(
        "return document.querySelector('.gutter .at').textContent") == str(fault["line"]), at)
    page.write("grammar", grammar)
    count.hold("no fault", page.text("grammar-fault") == "", page.text("grammar-fault"))
    page.type("tokens", " ELES")
    fault = module.ask(*page.texts())["fault"]
    said = page.text("tokens-fault")
    count.hold("a fault of the input", said.startswith(f"K1 at token {fault['place']}: "), said)
    page.write("tokens", tokens)


def try_edits(count, page, module):
    """A token inserted and one dropped, each taken back by a step back."""
    page.choose("edits")
    page.press("home", "right", "right")
    first = page.value("tokens").split()[0]
    page.write("token", first)
    page.click("insert")
    lines = ["to 2", f"insert {first}"]
    compare(count, "insert", page, module, [*lines, "to 3"])
    page.click("drop")
    page.click("on")
    lines += ["drop"]
    compare(count, "drop", page, module, [*lines, "to 5"])
    page.press("end")
    compare(count, "edits, end", page, module, [*lines, f"run {FAR}"])
    page.press("home")
    page.press("end")
    compare(count, "edits, undone", page, module, [f"run {FAR}"])
    page.write("token", "NIX")
    page.press("home")
    page.click("insert")
    count.hold("a bad token", page.text("refused") == "bad token", page.text("refused"))
    page.browser.run("document.getElementById('talk').open = true")
    page.write("line", "back 1")
    page.browser.run("document.getElementById('commands').requestSubmit()")
    page.wait()
    replies = page.text("replies")
    count.hold("a command line", replies.endswith("> back 1\nat start"), replies)


def try_unwinding(count, page, module):
    """An accepted parse as a rightmost derivation."""
    page.choose("calculator")
    page.browser.run("document.getElementById('unwinding').open = true")
    time.sleep(0.05)
    page.wait()
    shown = page.browser.run("return [...document.querySelectorAll('#unwound li')].map("
                             "(it) => it.textContent)")
    said = module.ask(*page.texts(), f"run {FAR}\nshow\nunwind\n")["replies"].splitlines()
    forms = said[next(at for at, line in enumerate(said) if line.startswith("errors: ")) + 1 :]
    count.hold("the forms", shown == forms and len(forms) > 2, shown)


def try_address(count, page, module, url):
    """What is shown is in the address, and comes back from it."""
    page.choose("edits")
    page.press("home", "right", "right")
    page.click("drop")
    seen, texts = page.seen(), page.texts()
    time.sleep(0.7)
    address = page.browser.run("return location.hash")
    count.hold("a compressed address", re.fullmatch(r"#z[\w-]+", address), address)
    other = Page(page.browser, "about:blank")
    other = Page(page.browser, url + address)
    count.hold("the same texts", other.texts() == texts, other.texts())
    count.hold("the same position", other.seen() == seen, other.seen())
    values = json.dumps({"grammar": NUM, "tokens": "NUM ';'", "lines": ["to 1"]})
    letters = base64.urlsafe_b64encode(values.encode()).decode().rstrip("=")
    page.browser.run("location.hash = arguments[0]", f"#j{letters}")
    time.sleep(0.1)
    page.wait()
    count.hold("a plain address", page.texts() == (NUM, "NUM ';'"), page.texts())
    compare(count, "a plain address", page, module, ["to 1"])


def try_drops(count, page):
    """Files that are dropped."""
    page.drop("body", ["list.y", NUM], ["sentence", "NUM ';'"])
    count.hold("files by their names", page.texts() == (NUM, "NUM ';'"), page.texts())
    count.hold("their verdict", page.text("verdict") == "Accepted: a sentence, in 5 steps.",
               page.text("verdict"))
    page.drop("#tokens", ["other.y", "NUM NUM"])
    count.hold("a file on a field", page.texts() == (NUM, "NUM NUM"), page.texts())


def try_breaking(count, page):
    """An answer that takes long is broken off, and the next change is answered."""
    page.browser.run("document.getElementById('grammar').select()")
    page.browser.insert(dense(240, 7))
    page.wait("return !document.getElementById('break').hidden")
    page.click("break")
    count.hold("broken off", page.text("verdict").startswith("Broken off."), page.text("verdict"))
    page.write("grammar", NUM)
    page.write("tokens", "NUM ';'")
    count.hold("answered again", page.text("verdict") == "Accepted: a sentence, in 5 steps.",
               page.text("verdict"))


def look(count, driver, url, shots):
    """Pictures of the page wide and narrow, light and dark; nothing is wider than the page."""
    for width, dark in ((1400, False), (1400, True), (360, False), (360, True)):
        with Browser(driver, width, 900, dark) as browser:
            page = Page(browser, url)
            page.choose("statements")
            wide = browser.run("return document.documentElement.scrollWidth")
            count.hold(f"fits {width} pixels", wide <= width, wide)
            name = f"playground-{width}-{'dark' if dark else 'light'}.png"
            height = browser.run("return document.documentElement.scrollHeight")
            browser.size(width, min(height, 4000))
            browser.shot(shots / name)


def try_lessons(count, page, module):
    """The lessons of the course, each with its grammar and its tokens."""
    names = page.browser.run("return [...document.querySelectorAll('#examples optgroup[label=Lessons] option')]"
                             ".map((it) => it.value)")
    lessons = dict(lessons_of(COURSE.read_text()))
    count.hold("all lessons", names == list(lessons), names)
    for name in names:
        page.choose(name)
        files = {it.name: it.text for it in reversed(list(blocks_of(lessons[name])))
                 if it.kind == "file"}
        texts = files["grammar.y"], files["tokens"]
        count.hold(f"{name}: its texts", page.texts() == texts, page.texts())
        compare(count, name, page, module, [f"run {FAR}"])


def try_all(count, browser, url, module):
    """All that a person does."""
    page = Page(browser, url)
    names = browser.run("return [...document.querySelectorAll('#examples > option')]"
                        ".map((it) => it.value)")
    folders = {it.parent.name for it in EXAMPLES.glob("*/tokens")}
    count.hold("all examples", set(names) == {"", *folders}, names)
    for name in names[1:]:
        step_through(count, page, module, name)
    try_lessons(count, page, module)
    try_conflicts(count, page, module)
    try_reasons(count, page, module)
    try_texts(count, page, module)
    try_page(count, page, module)
    try_faults(count, page, module)
    try_edits(count, page, module)
    try_unwinding(count, page, module)
    try_drops(count, page)
    try_breaking(count, page)
    try_address(count, page, module, url)
    count.hold("names for all", browser.run(NAMELESS) == [], browser.run(NAMELESS))
    taken = browser.run("return performance.getEntriesByType('resource').map((it) => it.name)"
                        ".filter((it) => !/^(blob|data):/.test(it))")
    count.hold("nothing is fetched", taken == [], taken)
    count.hold("no faults in scripts", browser.errors() == [], browser.errors())


def compare_page(page, shots, count):
    """The page in Chromium, by all that a person does, and as pictures."""
    url = page.absolute().as_uri()
    shots.mkdir(parents=True, exist_ok=True)
    with Driver() as driver:
        with Module(page) as module, Browser(driver, 1400, 900) as browser:
            try_all(count, browser, url, module)
        look(count, driver, url, shots)


def compare_in_firefox(page, shots, count):
    """The same in Firefox."""
    with Module(page) as module, Firefox(1400, 900) as browser:
        try_all(count, browser, page.absolute().as_uri(), module)
        browser.shot(shots / "playground-firefox.png")
