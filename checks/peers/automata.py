"""The automaton of a grammar as bison tells it in XML, and as `yacc` does in its report."""
import re
import xml.etree.ElementTree as ElementTree

END = "$end"
WAY = re.compile(r"  (\S.*) (shift|goto) (\d+)")
CONFLICTS = re.compile(r"  (\S.*) conflicts (\d+) (\d+)")


class Automaton:
    """Rules by their number, as lists of names; of each state its ways by names, the names on which
    it has a conflict, and its conflicts as they are counted."""

    def __init__(self):
        self.rules = []
        self.ways = []
        self.conflicts = []

    def pairs(self, states):
        """The pairs of state and name with a conflict, of these states."""
        return {(state, name) for state in states for name in self.conflicts[state]}


def by_bison(path):
    """What bison writes in XML."""
    made = Automaton()
    tree = ElementTree.parse(path)
    end = tree.find("grammar/rules/rule[@number='0']").findall("rhs/symbol")[-1].text

    def name(text):
        """A name, where the end of the grammar is `$end`."""
        return END if text == end else text

    for rule in tree.iterfind("grammar/rules/rule"):
        body = [name(it.text) for it in rule.iterfind("rhs/symbol")]
        made.rules.append([rule.find("lhs").text, *body])
    for state in tree.iterfind("automaton/state"):
        ways = state.iterfind("actions/transitions/transition")
        made.ways.append({name(it.get("symbol")): int(it.get("state")) for it in ways})
        reductions = state.iterfind("actions/reductions/reduction")
        left = [it.get("symbol") for it in reductions if it.get("enabled") == "false"]
        made.conflicts.append({name(it) for it in left})
    return made


def by_yacc(path):
    """What `yacc` writes in its report."""
    made = Automaton()
    lines = path.read_text(encoding="latin-1").splitlines()
    for line in lines[1 : lines.index("Unreachable")]:
        left, _, body = line.split(" ", 1)[1].partition(":")
        made.rules.append([left, *body.split()])
    for line in lines:
        way, conflict = WAY.fullmatch(line), CONFLICTS.fullmatch(line)
        if re.fullmatch(r"State \d+", line):
            made.ways.append({})
            made.conflicts.append(set())
        elif way:
            made.ways[-1][way[1]] = int(way[3])
        elif conflict:
            made.conflicts[-1].add(conflict[1])
    return made


def names_of(bison, yacc):
    """What each name of bison's is in `yacc`'s rules, or why there is no such map. An end in a body
    is passed over."""
    names = {END: END}
    if len(bison.rules) != len(yacc.rules):
        return f"{len(bison.rules)} rules of bison, {len(yacc.rules)} of yacc"
    for number, (rule, other) in enumerate(zip(bison.rules, yacc.rules)):
        rule = rule if number == 0 else [name for name in rule if name != END]
        if len(rule) != len(other):
            return f"rule {number} of bison isn't that of yacc"
        for name, wanted in zip(rule, other):
            if names.setdefault(name, wanted) != wanted:
                return f"{name} is both {names[name]} and {wanted}"
    if len(set(names.values())) != len(names):
        return "two names became one"
    return names


def mapped(bison, yacc, names):
    """The state of `yacc` for each state of bison before the end; or a difference."""
    found, waiting = {0: 0}, [0]
    for state in waiting:
        mine = {names.get(name): to for name, to in bison.ways[state].items() if name != END}
        theirs = yacc.ways[found[state]]
        if set(mine) != set(theirs):
            return f"state {state} of bison and {found[state]} of yacc have other ways"
        for name, to in mine.items():
            if to not in found:
                found[to] = theirs[name]
                waiting.append(to)
            elif found[to] != theirs[name]:
                return f"state {to} of bison is both {found[to]} and {theirs[name]} of yacc"
    if len(set(found.values())) != len(found):
        return "two states of bison are one of yacc"
    return found


def difference(bison, yacc):
    """What differs, or None; and what is to be told beside it."""
    names = names_of(bison, yacc)
    if isinstance(names, str):
        return names, ""
    states = mapped(bison, yacc, names)
    if isinstance(states, str):
        return states, ""
    after = len(bison.ways) - len(states)
    cut = len(yacc.ways) - len(states)
    ends = sum(END in rule for rule in bison.rules[1:])
    told = f"{len(bison.ways)} states of bison, {len(yacc.ways)} of yacc"
    told += f", {cut} of which bison cuts off" if cut else ""
    told += f", {after} of bison after ends in {ends} bodies" if ends else ""
    if after != 1 and not ends:
        return f"bison has {after} states that yacc hasn't", told
    mine = {(states[at], names[name]) for at, name in bison.pairs(states)}
    theirs = yacc.pairs(set(states.values()))
    if mine != theirs:
        return f"other conflicts: {sorted(mine ^ theirs)[:5]}", told
    return None, f"{told}, {len(mine)} pairs with a conflict"
