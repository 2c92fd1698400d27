"""What a page tells beside the steps of a parse, compared with `ydebug`: the text with the token
ahead marked, the words in trees, what was expected at errors, the lookaheads of complete items, the
drawing of the trees, and the conflicts by their causes."""
import json
import re

from checks.pages.browser import Browser
from checks.pages.parts import after, before
from checks.shared.places import EXAMPLES
from checks.shared.running import ran

TEXTS = {"statements": ("step.c", "spoiled.c"), "configuration": ("site.conf", "spoiled.conf"),
         "queries": ("comma.sql",)}
# What a token looks like in all of these texts.
WORD = re.compile(r"[A-Za-z_]\w*|\d+(?:\.\d+)?|'(?:[^'\n]|'')*'|\"(?:[^\"\\\n]|\\.)*\"|<=|>=|.")
MOST_NODES = 200
LOOKED = """
const text = (id) => document.getElementById(id).textContent;
const all = (query) => [...document.querySelectorAll(query)];
const blanks = (it) => it.replace(/\\s+/g, " ").trim();
const marks = all("#lines mark"), line = marks.length ? marks[0].parentNode : null;
const inside = (it, box) => it.top >= box.top - 1 && it.bottom <= box.bottom + 1;
const before = document.createRange();
if (line) {
  before.setStart(line, 0);
  before.setEndBefore(marks[0]);
}
return {
  position: parseInt(text("place")), mode: text("mode"), state: text("state-name").slice(6),
  ahead: all("#tokens [aria-current]").map((it) => [Number(it.dataset.place), it.textContent])[0],
  mark: marks.map((it) => it.textContent).join("\\n"),
  line: line && Number(line.dataset.line), before: before.toString(),
  seen: line && inside(marks[0].getBoundingClientRect(),
    document.getElementById("lines").getBoundingClientRect()),
  expected: document.getElementById("expected").hidden ? "" : text("expected"),
  looks: all("#items li").map((it) => [blanks(it.childNodes[0].textContent + "."
    + it.childNodes[2].textContent), blanks(it.querySelector(".looks").textContent)]),
};"""
DRAWN = """
const nodes = [...document.querySelectorAll("#forest g")];
const rows = [...document.querySelectorAll("#tree [role=treeitem]")];
return {
  nodes: nodes.map((it) => [Number(it.getAttribute("aria-level")), it.children[1].textContent,
    it.children[2].textContent, it.getAttribute("aria-expanded"), it.getAttribute("aria-label")]),
  edges: document.getElementById("edges").getAttribute("d").split("M").length - 1,
  active: nodes.findIndex((it) => it.id
    === document.getElementById("drawing").getAttribute("aria-activedescendant")),
  overlaps: nodes.some((it) => nodes.some((other) => {
    const [one, two] = [it, other].map((node) => node.children[0].getBoundingClientRect());
    return it !== other && one.left < two.right && two.left < one.right
      && one.top < two.bottom && two.top < one.bottom;
  })),
  place: document.getElementById("place").textContent,
};"""

# The nodes of trees, each with its name and its note: all rows, as for print, and what is drawn.
NODES = """
const all = (query) => [...document.querySelectorAll(query)];
const text = (it) => it.textContent.trim();
dispatchEvent(new Event("beforeprint"));
const rows = all("#tree [role=treeitem]").map((it) => it.childNodes);
const found = [rows.map((it) => [text(it[1]), text(it[2])]),
  all("#forest g").map((it) => [text(it.children[1]), text(it.children[2])]),
  all("#forest g").map((it) => it.getAttribute("aria-label"))];
dispatchEvent(new Event("afterprint"));
return found;"""
LEAF = re.compile(r"^ *(?:\(\d+\) )?(\S.*)  (@\d+:\d+)$", re.M)


def looked(browser):
    """What is seen of a position beside what `ystep` knows."""
    return browser.run(LOOKED)


def data_of(page):
    """The data of a page."""
    text = page.read_text()
    return json.loads(text[len(before()):len(text) - len(after())])


def fits(count, what, browser):
    """A narrow page is no wider than the window."""
    browser.size(360, 800)
    wide = browser.run("return document.documentElement.scrollWidth")
    count.hold(f"{what}: fits 360 pixels", wide <= 360, wide)


def asked(ydebug, folder, words, lines):
    """What a session answers to the last of some lines."""
    def said(lines):
        """What it answers to all of these."""
        return ran([ydebug, *words], folder, "".join(f"{it}\n" for it in lines)).stdout
    return said(lines)[len(said(lines[:-1])):]


def spots(ydebug, folder, words):
    """The line and the column of each token of a text."""
    said = asked(ydebug, folder, words, ["upcoming"])
    return [(int(line), int(column)) for line, column in re.findall(r"@(\d+):(\d+)$", said, re.M)]


def word_at(source, line, column):
    """The bytes before a place of a text on its line, and the token there."""
    row = source.split(b"\n")[line - 1]
    return row[:column - 1].decode(), WORD.match(row[column - 1:].decode())


def try_places(count, what, browser, source, places):
    """At each position the token ahead is marked, in sight."""
    last = data_last(browser)
    for position in range(last + 1):
        if position:
            browser.press("right")
        found = looked(browser)
        number, token = found["ahead"]
        at = f"{what}: at {position}"
        count.hold(f"{at}: the position", found["position"] == position, found)
        count.hold(f"{at}: the mark is in sight", found["seen"], found)
        if token == "$end":
            count.hold(f"{at}: the end", found["mark"] == "$end", found)
            continue
        line, column = places[number - 1]
        head, word = word_at(source, line, column)
        count.hold(f"{at}: the line", found["line"] == line, f"{found} {line}")
        near = found["before"]  # a long line begins further left
        is_head = near == head or (head.endswith(near) and len(near.encode()) > 1000)
        count.hold(f"{at}: the column", is_head, f"{found} {head!r}")
        count.hold(f"{at}: the token", word and found["mark"] == word[0], f"{found} {word}")


def data_last(browser):
    """The last position of a page."""
    return int(browser.run("return document.getElementById('slider').max"))


def try_text(count, driver, ydebug, room, shots):
    """Texts of examples, and one with letters of several bytes, a long line, and marks far down."""
    folders = [(EXAMPLES / name, f"{name}.lex", text) for name, texts in TEXTS.items()
               for text in texts]
    folder = room / "letters"
    folder.mkdir()
    for file in ("grammar.y", "statements.lex"):
        (folder / file).write_text((EXAMPLES / "statements" / file).read_text())
    far, long = "/* \u00e9\u4e2d */\n" * 300, "/* " + "\u00e9" * 3000 + " */"
    letters = f"n = 1; /* two\nlines */\n{far}{long} m\n= n /* \u00e9 */ ;{long}k;\n"
    (folder / "letters.c").write_text(letters)
    for folder, spec, text in [*folders, (folder, "statements.lex", "letters.c")]:
        page, words = room / f"{text}.html", ["grammar.y", "--lex", spec, text]
        made = ran([ydebug, "page", *words, "-o", str(page)], folder)
        count.hold(f"{text}: a page is made", made.returncode == 0, made.stderr)
        with Browser(driver) as browser:
            browser.go(page.as_uri())
            source = (folder / text).read_bytes()
            try_places(count, text, browser, source, spots(ydebug, folder, words))
            count.hold(f"{text}: no error in the script", not browser.errors())
            browser.shot(shots / f"text-{text}.png")
            fits(count, text, browser)


def words_folder(room):
    """A language whose texts have words of every kind: literals, long words, bytes of any value."""
    folder = room / "words"
    folder.mkdir()
    (folder / "grammar.y").write_text("%token NAME TEXT\n%%\ns : item | s item ;\n"
                                      "item : NAME ';' | TEXT ';' ;\n")
    (folder / "words.lex").write_text('NAME [a-z]+\nTEXT "[^"]*"\n%skip \\s+\n')
    long = "\u00e9" + "x" * 60
    (folder / "all").write_text(f'limit ; "\u00e9\t~\\" ;\n  "{long}" ; {"y" * 40} ;\n{"z" * 41};')
    return folder


def try_leaves(count, what, browser, said):
    """The tokens in trees have the words and places that a session says, in rows and drawn."""
    wanted = [list(it) for it in LEAF.findall(said)]
    rows, drawn, labels = browser.run(NODES)
    leaves = [it for it in rows if it[1].startswith("@")]
    count.hold(f"{what}: words in rows", leaves == wanted,
               f"\n  shown  {leaves}\n  wanted {wanted}")
    leaves = [it for it in drawn if it[1].startswith("@")]
    count.hold(f"{what}: words that are drawn", all(it in wanted for it in leaves), f"{leaves}")
    told = all(", ".join(it) in labels for it in leaves)
    count.hold(f"{what}: words in labels", told, f"{labels}")
    return len(leaves)


def try_words(count, driver, ydebug, room, shots):
    """Trees have words where tokens were read from a text, as `tree` of a session has them."""
    folders = [(EXAMPLES / name, f"{name}.lex", text) for name, texts in TEXTS.items()
               for text in texts]
    for folder, spec, text in [*folders, (words_folder(room), "words.lex", "all")]:
        page, words = room / f"words-{text}.html", ["grammar.y", "--lex", spec, text]
        made = ran([ydebug, "page", *words, "-o", str(page)], folder)
        count.hold(f"{text}: a page is made", made.returncode == 0, made.stderr)
        seen = 0
        with Browser(driver) as browser:
            browser.go(page.as_uri())
            last = data_last(browser)
            for position in (2, last // 2, last - 1):
                said = asked(ydebug, folder, words, [f"to {position}", "tree all"])
                browser.go("about:blank")
                browser.go(f"{page.as_uri()}#{position}")
                seen += try_leaves(count, f"{text} at {position}", browser, said)
            count.hold(f"{text}: some words are drawn", seen)
            count.hold(f"{text}: no error in the script", not browser.errors())
            browser.shot(shots / f"words-{text}.png")


def in_place_of(token, said):
    """What a page says where a session says that these tokens are expected."""
    return f"expected in place of {token}: {' '.join(said.split())}"


def try_expected(count, driver, ydebug, room, shots):
    """What was expected at each error is what a session says before the reductions that it
    brought, and at the first one what the verdict says."""
    given = [("recovery", ["grammar.y", "tokens"]),
             ("queries", ["grammar.y", "--lex", "queries.lex", "comma.sql"]),
             ("statements", ["grammar.y", "--lex", "statements.lex", "spoiled.c"])]
    for name, words in given:
        folder, page = EXAMPLES / name, room / f"expected-{name}.html"
        ran([ydebug, "page", *words, "-o", str(page)], folder)
        kinds = data_of(page)["record"]["kinds"]
        errors = [at for at, kind in enumerate(kinds) if kind == "e"]
        count.hold(f"{name}: there is an error", errors)
        verdict = ran([ydebug, "check", "--format", "json", *words], folder).stdout
        first = json.loads(verdict)["inputs"][0]["expected"]
        with Browser(driver) as browser:
            for at in errors:
                start = at - len(re.search("r*$", kinds[:at])[0])
                moves = [f"to {start}"] if start else []
                said = asked(ydebug, folder, words, [*moves, "expected"])
                if at == errors[0]:
                    count.hold(f"{name}: as the verdict", said.split() == first, f"{said} {first}")
                for position in (at, at + 1):
                    browser.go("about:blank")
                    browser.go(f"{page.as_uri()}#{position}")
                    found = looked(browser)
                    wanted = in_place_of(found["ahead"][1], said)
                    count.hold(f"{name}: expected at {position}", found["expected"] == wanted,
                               f"{found} {wanted}")
                listed = browser.run("return [...document.querySelectorAll('#recovery .could')]"
                                     ".map((it) => it.textContent)")
                count.hold(f"{name}: listed at {at}", listed[errors.index(at)] == wanted, listed)
            browser.shot(shots / f"expected-{name}.png")
            fits(count, name, browser)
            browser.press("end")
            found = looked(browser)
            told = found["mode"] == "failed"
            count.hold(f"{name}: at the end", bool(found["expected"]) == told, found)


def looks_in(said):
    """The complete items of a state with their lookaheads, as a session writes them."""
    lines = re.sub(r"\n {6,}", " ", said).splitlines()
    parts = [it.partition("reduce on") for it in lines if "reduce on" in it]
    return [[" ".join(item.split()), f"reduce on {' '.join(looks.split())}"]
            for item, _, looks in parts]


def try_looks(count, driver, ydebug, room):
    """Each complete item of each state that is shown has the lookaheads that `state` has."""
    for folder in sorted(it.parent for it in EXAMPLES.glob("*/grammar.y")):
        page, words, shown = room / "looks.html", ["grammar.y", "tokens"], {}
        ran([ydebug, "page", *words, "-o", str(page)], folder)
        with Browser(driver) as browser:
            browser.go(page.as_uri())
            for position in range(data_last(browser) + 1):
                if position:
                    browser.press("right")
                found = looked(browser)
                shown[found["state"]] = sorted(it for it in found["looks"] if it[1])
        lines = "".join(f"state {it}\n" for it in shown)
        said = re.split(r"^state (\d+)$", ran([ydebug, *words], folder, lines).stdout, flags=re.M)
        for state, text in zip(said[1::2], said[2::2]):
            wanted = sorted(looks_in(text))
            count.hold(f"{folder.name}: lookaheads of state {state}", shown[state] == wanted,
                       f"\n  shown  {shown[state]}\n  wanted {wanted}")


def try_small(count, browser):
    """A drawing of at most 200 nodes has what the rows have; its keys move and fold."""
    drawn, rows = browser.run(DRAWN), browser.run(
        "return [...document.querySelectorAll('#tree [role=treeitem]')].map((it) =>"
        "[Number(it.ariaLevel), it.childNodes[1].textContent.trim()])")
    nodes = drawn["nodes"]
    count.hold("drawing: its nodes", [it[:2] for it in nodes] == rows, f"{nodes}\n{rows}")
    roots = sum(it[0] == 1 for it in nodes)
    count.hold("drawing: its edges", drawn["edges"] == len(nodes) - roots, drawn)
    count.hold("drawing: no node over another", not drawn["overlaps"])
    for _ in range(40):
        if browser.run("return document.activeElement.id") == "drawing":
            break
        browser.press("tab")
    focus = browser.run("return document.activeElement.id")
    count.hold("drawing: tab comes to it", focus == "drawing", focus)
    browser.press("end", "home")
    seen = [browser.run(DRAWN)["active"]]
    for key in ("down", "down", "up", "down", "right", "left"):
        browser.press(key)
        seen.append(browser.run(DRAWN)["active"])
    levels = [nodes[it][0] for it in seen]
    count.hold("drawing: keys go up and down", levels[:5] == [1, 2, 3, 2, 3], levels)
    beside = levels[5:] == [3, 3] and seen[5] > seen[6] == seen[4]
    count.hold("drawing: and to the side", beside, seen)
    browser.press("home", "enter")
    folded = browser.run(DRAWN)
    label = folded["nodes"][0]
    leaves = sum(it[3] is None and "@" in it[2] for it in nodes)
    count.hold("drawing: enter folds", len(folded["nodes"]) < len(nodes), folded)
    count.hold("drawing: and says so", label[3] == "false", label)
    count.hold("drawing: leaves are counted", label[2] == f"{leaves} leaves", f"{label} {leaves}")
    browser.press("space")
    opened = browser.run(DRAWN)
    count.hold("drawing: space opens", len(opened["nodes"]) == len(nodes), opened)
    count.hold("drawing: no step is made", opened["place"] == drawn["place"], opened["place"])


def try_large(count, browser, tokens):
    """Of a tree of a long list 200 nodes are drawn; a click opens what is folded."""
    drawn = browser.run(DRAWN)
    nodes = drawn["nodes"]
    count.hold("large: 200 nodes at most", 150 < len(nodes) <= MOST_NODES, len(nodes))
    folded = [at for at, it in enumerate(nodes) if it[3] == "false"]
    hidden = sum(int(nodes[at][2].split()[0]) for at in folded)
    shown = sum(it[3] is None for it in nodes)
    count.hold("large: all leaves are counted", hidden + shown == tokens, f"{hidden} {shown}")
    label = nodes[folded[0]]
    count.hold("large: a label says so", label[4].endswith(f"{label[2]} below"), label)
    browser.run("document.querySelectorAll('#forest g')[arguments[0]]"
                ".dispatchEvent(new MouseEvent('click', { bubbles: true }))", folded[0])
    opened = browser.run(DRAWN)["nodes"]
    count.hold("large: a click opens", len(opened) == len(nodes) + 2, len(opened))
    count.hold("large: no node over another", not drawn["overlaps"])


def try_drawing(count, driver, ydebug, room, shots):
    """Small trees and a large one, wide and narrow."""
    page = room / "drawing.html"
    ran([ydebug, "page", "grammar.y", "tokens", "-o", str(page)], EXAMPLES / "statements")
    for width, dark in ((1280, False), (400, True)):
        with Browser(driver, width, 900, dark) as browser:
            browser.go(page.as_uri() + "#9999")
            wide = browser.run("return document.documentElement.scrollWidth")
            count.hold(f"drawing: fits {width} pixels", wide <= width, wide)
            try_small(count, browser)
            browser.run("document.getElementById('drawing').scrollIntoView({block: 'center'})")
            browser.shot(shots / f"drawing-{width}.png")
            count.hold("drawing: no error in the script", not browser.errors())
    folder, page = room / "many", room / "many.html"
    folder.mkdir()
    (folder / "grammar.y").write_text("%token A\n%%\ns : list ;\nlist : A | list A ;\n")
    (folder / "tokens").write_text("A " * 1000)
    ran([ydebug, "page", "grammar.y", "tokens", "-o", str(page)], folder)
    with Browser(driver) as browser:
        browser.go(page.as_uri() + "#9999")
        try_large(count, browser, 1000)
        browser.run("document.getElementById('drawing').scrollIntoView({block: 'center'})")
        browser.shot(shots / "drawing-large.png")


def try_conflicts(count, driver, ydebug, room, shots):
    """The conflicts by their causes: their counts and their blocks are those of the report."""
    folder, page = room / "conflicts", room / "conflicts.html"
    folder.mkdir()
    (folder / "grammar.y").write_text(
        "%token N IF ELSE\n%%\ns : e ';' | IF s | IF s ELSE s | u | v ;\n"
        "e : e '+' e | e '*' e | N ;\nu : N '!' ;\nv : N '!' ;\n")
    (folder / "tokens").write_text("N '+' N ';'\n")
    ran([ydebug, "page", "grammar.y", "tokens", "--conflicts", "-o", str(page)], folder)
    said = ran([ydebug, "conflicts", "grammar.y", "--all"], folder).stdout
    blocks = re.findall(r"conflict (\d+): state (\d+) on (\S+):", said)
    with Browser(driver) as browser:
        browser.go(page.as_uri())
        counts = browser.run("return document.getElementById('counts').textContent")
        count.hold("conflicts: their counts", said.startswith(f"grammar.y: {counts}\n"), counts)
        heads = browser.run("return [...document.querySelectorAll('#kinds h4')].map((it) =>"
                            " it.textContent)")
        found = sorted(re.findall(r"conflict (\d+): state (\d+) on (\S+)", "\n".join(heads)))
        count.hold("conflicts: their blocks", found == sorted(blocks), f"{found} {blocks}")
        groups = int(re.search(r"of (\d+) group", counts)[1])
        count.hold("conflicts: as many as are counted", len(heads) == groups, f"{heads} {counts}")
        causes = browser.run("return [...document.querySelectorAll('#kinds h3')].map((it) =>"
                             " it.textContent)")
        for cause in causes:
            count.hold("conflicts: a cause", f"  {cause}\n" in said, f"{cause}\n{said}")
        count.hold("conflicts: causes are named", len(causes) > 1, causes)
        height = browser.run("return document.documentElement.scrollHeight")
        browser.size(1280, min(height + 16, 4000))
        browser.shot(shots / "conflicts.png")
        fits(count, "conflicts", browser)
