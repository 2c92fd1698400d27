/* What `ydebug` says of the texts, by a worker of its own, so that no step of the parse waits for
   it: what was expected, conflicts with their sentences and hints, why cells say what they say, the
   page of the parse, and whatever a person asks of it. */

const PLACED = /^(?:grammar\.y|input|spec):(\d+):(?:(\d+):)? (.*)$/;
const MOST_CARDS = 400;
/* Who is asked, what each part was asked last, and what a person has asked. */
const told = { teller: null, keys: new Map(), cell: null, line: null, sketch: false, frame: null };

/* The words that say how the input is read. */
const reading = ({ spec }) => (spec.trim() ? ["--lex", "spec"] : []);

/* The runs that answer all that is shown, each with the texts that it reads. */
function runsFor(texts, here) {
  const runs = [], lex = reading(texts), add = (name, words, reads, input) =>
    runs.push({ name, words, reads, input });
  const why = ([state, token]) => `why ${state}${token ? ` ${token}` : ""}\n`;
  if (here) add("why-here", ["grammar.y", "none"], ["grammar.y"], why(here));
  if (told.cell) add("why-there", ["grammar.y", "none"], ["grammar.y"], why(told.cell));
  add("check", ["check", "grammar.y", ...lex, "input"], ["grammar.y", "input", "spec"]);
  if (told.line) add("told", told.line, ["grammar.y", "input", "spec"]);
  if (told.sketch) add("sketch", ["lex-spec", "grammar.y"], ["grammar.y"]);
  add("conflicts", ["conflicts", "grammar.y"], ["grammar.y"]);
  if (at("paged").open) add("page", ["page", "grammar.y", ...lex, "input", "--conflicts"],
    ["grammar.y", "input", "spec"]);
  return runs;
}

/* What a run is asked, so that nothing is asked twice. */
const keyOf = ({ words, reads, input }, files) =>
  JSON.stringify([words, input, reads.map((it) => files[it])]);

/* The request for what isn't answered yet. */
function tellRequest() {
  const texts = textsNow(), files = { "grammar.y": texts.grammar, input: texts.input,
    spec: texts.spec, none: "" };
  const all = runsFor(texts, page.here).map((run) => ({ ...run, key: keyOf(run, files) }));
  return { files, runs: all.filter(({ name, key }) => told.keys.get(name) !== key) };
}

/* Asks for what isn't answered yet, where there is something; whom, is made after the first answer
   on the parse, which comes the sooner. */
function askToTell() {
  if (!page.module || !tellRequest().runs.length) return;
  const deeds = { made: tellRequest, answered: takeTold, busy: (is) => busy("told", is) };
  told.teller ||= new Asker(page.module, at("worker").textContent, deeds);
  told.teller.ask();
}

/* A link to a place of the grammar. */
function placeLink(line, column) {
  const link = make("a", { href: "#grammar" }, column ? `${line}:${column}` : `line ${line}`);
  link.onclick = (event) => {
    event.preventDefault();
    event.stopPropagation();
    grammar.select(Number(line), Number(column || 1));
  };
  return link;
}

/* The head of a card: the state in it is a link. */
function headOf(text) {
  const [, before, state, after] = /^(.*?\bstate )(\d+)( on .*)$/.exec(text) || [];
  return state ? [before, stateLink(Number(state)), after] : [text];
}

/* A block of the report on conflicts, as a card: its first line, and what follows. */
function blockCard([first, ...rest]) {
  const [, line, column, said] = PLACED.exec(first) || [];
  const head = line ? said.replace(/^warning: /, "") : first;
  const isConflict = head.startsWith("conflict ");
  const card = make("li", { class: isConflict ? "card" : "card plain" });
  const title = make("h3", { class: "warned" }, ...headOf(head));
  if (line) title.append(" ", placeLink(line, column));
  card.append(title);
  const lines = rest.map((it) => it.replace(/^ {2}/, ""));
  if (lines.length) card.append(make("pre", {}, lines.join("\n")));
  return card;
}

/* The report on conflicts, cut into what is said of all, and its blocks. */
function blocksOf(text) {
  const head = [], blocks = [];
  for (const line of text.split("\n")) {
    if (PLACED.test(line)) blocks.push([line]);
    else if (line) (blocks[blocks.length - 1] || head).push(line);
  }
  return { head, blocks };
}

function showBlocks({ status, said, wrong }) {
  const { head, blocks } = blocksOf(said);
  at("causes").textContent = status ? wrong : head.join("\n").replaceAll("grammar.y: ", "");
  at("conflicts").replaceChildren(...some(blocks, blockCard, MOST_CARDS));
}

/* What was expected, where the input is refused; its place, where it is a text. */
function showCheck({ status, said }) {
  const lines = said.split("\n").filter(Boolean), isText = Boolean(spec.text.trim());
  const [, line, column, what] = (isText && lines.map((it) => PLACED.exec(it)).find(Boolean)) || [];
  at("check").textContent = status === 1 ? said.replace(/^input: /, "").trimEnd() : "";
  if (what) tokens.faultAt(Number(line), Number(column || 1), what);
}

/* A SPEC for the grammar, to be gone on with. */
function showSketch({ status, said }) {
  told.sketch = false;
  told.keys.delete("sketch");
  if (status) return;
  spec.text = said;
  typed();
}

/* The page that `ydebug page` makes, whole, in a frame of its own. */
function showPage({ status, said, wrong }) {
  at("unpaged").textContent = status ? wrong : "";
  at("page").hidden = at("saved").hidden = Boolean(status);
  URL.revokeObjectURL(told.frame);
  if (status) return;
  told.frame = URL.createObjectURL(new Blob([said], { type: "text/html" }));
  at("saved").href = at("page").src = told.frame;
}

/* What the program says on both streams. */
const both = ({ said, wrong }) => [said, wrong].filter(Boolean).join("\n").trimEnd();

const SHOWS = {
  check: showCheck, conflicts: showBlocks, page: showPage, sketch: showSketch,
  told: (part) => (at("told").textContent = both(part) || `status ${part.status}`),
  "why-here": (part) => (at("why-here").textContent = both(part)),
  "why-there": (part) => (at("why-there").textContent = both(part)),
};

/* Shows a part, where it is about the texts that stand there. */
function takeTold({ part, broken, ...answer }, { files, runs }) {
  if (broken) return endTold(broken, runs);
  const run = runs.find(({ name }) => name === part);
  if (!run) return undefined;
  const now = tellRequest().files;
  if (run.reads.some((it) => files[it] !== now[it])) return undefined;
  told.keys.set(part, run.key);
  return SHOWS[part](answer);
}

/* Takes away what was told, so that it is asked again when it is wanted. */
function forget(part) {
  told.keys.delete(part);
  at(part).textContent = "";
}

/* Ends what is asked; no run is asked again for the same. */
function giveUp(runs = tellRequest().runs) {
  for (const { name, key } of runs) told.keys.set(name, key);
  if (told.teller) told.teller.breakOff();
}

/* A module that has ended is begun again, and not asked the same. */
function endTold(why, runs) {
  giveUp(runs);
  say(`The module ended: ${why}`, "bad");
}

/* Why the cell of a state and a token says what it says. */
function askWhy(state, token) {
  told.cell = [state, token];
  askToTell();
  at("why-there").scrollIntoView({ block: "center" });
}

function listenToAsk() {
  at("paged").ontoggle = askToTell;
  at("sketch").onclick = () => {
    told.sketch = true;
    askToTell();
  };
  at("words").onsubmit = (event) => {
    event.preventDefault();
    const words = at("told-line").value.split(/\s+/).filter(Boolean);
    told.line = words.length ? words : null;
    told.keys.delete("told");
    askToTell();
  };
}
