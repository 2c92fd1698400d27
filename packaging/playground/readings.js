/* What the texts of the library say, taken apart for display: replies of sessions, trees, reports.
   Nothing is decided here: a line stays the line that the library wrote. */

/* How far a parse is followed towards its end, and how many steps are shown after a position. */
const FAR = 10000, AHEAD = 200;
const SHOWN = /^(\d+) (running|popping|accepted|failed)$/;
const STEP = /^(\d+) (?!undo )(.*)$/, UNDO = /^(\d+) undo (.*)$/;
const EDIT = /^(?:insert|drop) /;
const WORD_IN_LINE = /'(?:\\[^]|[^'\\])*'|[^ ]+/g;

const linesOf = (text) => text.split("\n").slice(0, -1);

/* The words of a line; a literal is one, also where a blank stands in its quotes. */
const wordsOf = (line) => line.match(WORD_IN_LINE) || [];

/* The words after the name of a line of `show`. */
const afterName = (line) => wordsOf(line.slice(line.indexOf(":") + 1));

/* What the five lines of `show` say. */
function shownOf(lines) {
  const [, place, mode] = SHOWN.exec(lines[0]);
  return { lines, place: Number(place), mode, stack: afterName(lines[1]), rest: afterName(lines[2]),
    counter: Number(afterName(lines[3])[0]), errors: Number(afterName(lines[4])[0]) };
}

/* The replies to command lines of which every second one is `show`: what is said to each of the
   others, and what is shown after it. */
function repliesOf(text) {
  const lines = linesOf(text), parts = [];
  let said = [];
  for (let at = 0; at < lines.length; at += 1) {
    if (SHOWN.test(lines[at])) {
      parts.push({ said, shown: shownOf(lines.slice(at, at + 5)) });
      said = [];
      at += 4;
    } else {
      said.push(lines[at]);
    }
  }
  if (said.length) parts.push({ said, shown: null });
  return parts;
}

/* The steps and edits that stand after replies: the last line written for each position. */
function standing(parts) {
  const steps = [];
  for (const { said, shown } of parts) {
    for (const line of said) {
      const step = STEP.exec(line);
      if (step) steps[Number(step[1]) - 1] = step[2];
    }
    if (shown) steps.length = shown.place;
  }
  return steps;
}

/* The command lines by which a session comes to where it stands, from steps and edits that stand;
   where the parse has ended, it is followed to its end. */
function condensed(steps, ended) {
  const lines = [];
  steps.forEach((step, at) => {
    if (EDIT.test(step)) lines.push(`to ${at}`, step.startsWith("drop") ? "drop" : step);
  });
  return [...lines, ended ? `run ${FAR}` : `to ${steps.length}`];
}

const PIECE = / ?(?:\((\d+)|(\))|('(?:\\[^]|[^'\\])*'@\d+|[^ ()]+))/g;

/* The rows of trees, from the top: each has its depth, and a rule, or a token with its place, or
   `error`. */
function rowsOf(lines) {
  const rows = [];
  for (const line of lines) {
    let depth = 0;
    for (const [, rule, end, leaf] of line.matchAll(PIECE)) {
      if (end) {
        depth -= 1;
        continue;
      }
      const at = leaf ? leaf.lastIndexOf("@") : -1;
      const name = at > 0 ? leaf.slice(0, at) : leaf;
      const place = at > 0 ? leaf.slice(at + 1) : "";
      rows.push({ depth, rule: rule && Number(rule), name, place });
      depth += rule ? 1 : 0;
    }
  }
  return rows;
}

const NUMBERED = /^(\d+) (.*)$/;
const CELL =
  /^('(?:\\[^]|[^'\\])*'|[^ ]+) (?:(shift|reduce|goto) (\d+)|accept|conflicts (\d+ \d+))$/;
const ITEM = /^[^' ][^ ]*:( |$)/;

/* A line of a state: an item, or a cell with what is done in it. */
function stateLine(state, line) {
  const cell = ITEM.test(line) ? null : CELL.exec(line);
  if (!cell) {
    state.items.push(line);
    return;
  }
  const [, name, deed, number, counts] = cell;
  if (counts) state.conflicts.push({ name, counts: counts.split(" ").map(Number) });
  else state.cells.push({ name, deed: deed || "accept", number: Number(number), line });
}

/* The parts of a report. */
function reportOf(text) {
  const report = { rules: [], unreachable: [], tokens: [], states: [] };
  let part = null;
  for (const line of linesOf(text)) {
    const state = /^State (\d+)$/.exec(line);
    if (state) {
      part = { number: Number(state[1]), items: [], cells: [], conflicts: [] };
      report.states.push(part);
    } else if (/^(Rules|Unreachable|Tokens)$/.test(line)) {
      part = report[line.toLowerCase()];
    } else if (line.startsWith("  ")) {
      stateLine(part, line.slice(2));
    } else if (NUMBERED.test(line)) {
      const [, number, rest] = NUMBERED.exec(line);
      part.push({ number: Number(number), text: rest });
    }
  }
  return report;
}

/* The states that a stack of symbols leads through from the first one, by shifts and gotos. */
function statesOf(report, stack) {
  const found = [0];
  for (const name of stack) {
    const state = report.states[found[found.length - 1]];
    const cell = state && state.cells.find((it) =>
      it.name === name && (it.deed === "shift" || it.deed === "goto"));
    found.push(cell ? cell.number : null);
  }
  return found;
}

/* The cell of a state for a token: its own, or the one for all of them. */
const cellFor = (state, name) => state.cells.find((it) =>
  it.deed !== "goto" && (it.name === name || it.name === "."));

/* An item by its dot: the words before it, those after it, and whether it is complete; then the
   latter are `on` and its lookaheads. A symbol may be named as a dot is, or `on`: then the rules
   say which is meant. */
function cutAtDot(item, rules) {
  const words = wordsOf(item);
  for (let at = words.indexOf("."); at > 0; at = words.indexOf(".", at + 1)) {
    const [before, after] = [words.slice(0, at), words.slice(at + 1)];
    if (rules.has([...before, ...after].join(" "))) return { before, after, complete: false };
    if (rules.has(before.join(" ")) && after[0] === "on") return { before, after, complete: true };
  }
  return { before: words, after: [], complete: false };
}

/* Where each of the words of a tokens file begins, and how long it is; all before the first fault
   are words of this form. */
function placesOf(tokens) {
  const word = /'(?:\\(?:x[0-9A-Fa-f]+|[0-7]{1,3}|[^])|[^'\\])'|[^ \t\n\r\f']+|'/g;
  return Array.from(tokens.matchAll(word), (it) => [it.index, it[0].length]);
}
