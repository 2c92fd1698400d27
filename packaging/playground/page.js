/* What holds the page together: the texts and the command lines that are asked about, the answers
   that are shown, and what a person does. */

const SENT = /^(?:to \d+|run \d+|insert [^\n]*|drop)$/, START = "to 0", END = `run ${FAR}`;
const MOST_FILE = 1 << 24, MOST_UNWOUND = 2000, LATER = 400;
const REFUSALS = ["bad token", "no token", "halted", "limit", "no memory", "not accepted",
  "had error", "unknown command"];
let given, grammar, tokens, spec, asker, addressTimer;
/* The lines by which the session comes to where it stands, the lines that wait to be sent, the
   report on the last grammar without a fault, the tokens of the input, what was shown last, the
   state and the token at which the parse stands, and the module's bytes. */
const page = { lines: [END], moves: [], report: null, rules: new Set(), verdict: null, words: "",
  shown: null, here: null, module: null };

/* The texts that stand in the fields. */
const textsNow = () => ({ grammar: grammar.text, input: tokens.text, spec: spec.text });

/* Each line with `show` after it, so that its reply is known from the next one's. */
const withShow = (line) => (line === "show" ? [line] : [line, "show"]);

const isLong = () => Boolean(page.verdict && page.verdict.steps > MOST_UNWOUND);

/* The request for what is asked now. */
function request() {
  const { lines, moves } = page;
  const asked = [...lines, ...moves, "tree", `run ${AHEAD}`].flatMap(withShow);
  if (at("unwinding").open && !isLong()) asked.push("unwind");
  const commands = asked.map((line) => `${line}\n`).join("");
  return { ...textsNow(), commands, lines: [...lines], moves: [...moves] };
}

function move(line) {
  page.moves.push(line);
  asker.ask();
}

/* What is said of a fault, and how it is mended. */
function wordsFor(code) {
  const [what, mend] = given.faults[code] || ["", ""];
  return { what, said: [what, mend].filter(Boolean).join("\n") };
}

function showGrammarFault({ code, line, before }) {
  const isEnd = code === 5 && before >= grammar.text.trimEnd().length;
  const name = `G${code}`, { what, said } = wordsFor(isEnd ? "G5 at the end" : name);
  at("grammar-fault").textContent = `${name}${line ? ` at line ${line}` : ""}: ${said}`;
  if (!line) return;
  const [word] = /^[\w.$]+|^[^]?/.exec(grammar.text.slice(before));
  grammar.fault(before, word.trim().length || 1, `${name}: ${what}`);
}

/* Marks a token of the input by its place, counted from 1; the end comes after the last one. In a
   text `ydebug check` says where it is. */
function markToken(place, said) {
  if (spec.text.trim()) return;
  const found = placesOf(tokens.text)[place - 1];
  if (found) tokens.fault(...found, said);
  else tokens.fault(tokens.text.trimEnd().length, 1, said);
}

function showTokensFault({ code, place }) {
  const { what, said } = wordsFor(`K${code}`);
  at("tokens-fault").textContent = `K${code}${place ? ` at token ${place}` : ""}: ${said}`;
  if (place) markToken(place, `K${code}: ${what}`);
}

const REFUSED = { 1: "The grammar has a fault.", 2: "The input has a fault.",
  3: "Memory ran out.", 4: "The grammar has more than 16,384 states." };

function showFault(fault) {
  for (const id of ["grammar-fault", "tokens-fault"]) at(id).textContent = "";
  for (const editor of [grammar, tokens, spec]) {
    editor.clear();
    editor.number();
  }
  if (fault.status === 1) showGrammarFault(fault);
  if (fault.status === 2) showTokensFault(fault);
}

/* Why a text has no tokens: its own mistake, or one of its SPEC. */
function showUncut(said) {
  page.shown = page.here = null;
  say("The text has no tokens.", "bad");
  at("tokens-fault").textContent = said.trimEnd();
  const [, file, line, column, what] =
    /^(input|spec):(\d+):(?:(\d+):)? (.*)$/m.exec(said) || [];
  const editor = { input: tokens, spec }[file];
  if (editor) editor.faultAt(Number(line), Number(column || 1), what);
}

function say(text, kind) {
  at("verdict").textContent = text;
  at("verdict").className = `verdict ${kind}`;
}

const EXACT = { true: "No cell has a choice, so no sentence begins with these tokens.",
  false: "Some cells have a choice: by another one it might be a sentence." };

function showVerdict(verdict) {
  const { status, outcome, exact, steps, token } = verdict;
  if (status) return say(REFUSED[status], "bad");
  if (outcome === 1) return say(`Accepted: a sentence, in ${steps} steps.`, "good");
  if (outcome === 3) return say("Neither accepted nor rejected within 1,000,000 steps.", "bad");
  const name = placesOf(page.words)[token - 1] ? `token ${token}` : "the end of the input";
  markToken(token, "it can't come here");
  return say(`Rejected at ${name}. ${EXACT[exact]}`, "bad");
}

function takeReport({ status, text, shiftReduce, reduceReduce }) {
  if (status) return;
  page.report = reportOf(text);
  page.rules = new Set(page.report.rules.map((it) => it.text));
  at("counts").textContent = shiftReduce + reduceReduce
    ? `Conflicts: ${shiftReduce} shift/reduce, ${reduceReduce} reduce/reduce.` : "No conflicts.";
  at("names").replaceChildren(...page.report.tokens.slice(2).map(({ text: name }) =>
    make("option", { value: name })));
  at("report").textContent = text;
}

/* The state around which states are shown, and what is marked. */
function drawStates(middle) {
  const { report, rules, shown } = page;
  if (!report) return;
  const name = shown ? shown.rest[0] || "$end" : null;
  showStates(report, rules, { middle, top: shown ? shown.top : null, name,
    onlyConflicts: at("only-conflicts").checked });
}

function gotoState(number) {
  at("state").value = number;
  drawStates(number);
  const card = document.getElementById(`state-${number}`);
  if (card) card.scrollIntoView({ block: "center" });
}

/* What was said to the lines that were sent. */
function showTalk(moves, parts) {
  const lines = moves.flatMap((line, index) => {
    const { said, shown } = parts[index] || { said: [] };
    return [`> ${line}`, ...said, ...(line === "show" && shown ? shown.lines : [])];
  });
  if (!lines.length) return;
  const before = at("replies").textContent.split("\n").slice(-LATER);
  at("replies").textContent = [...before, ...lines].filter(Boolean).join("\n");
  at("replies").scrollTop = at("replies").scrollHeight;
  const [refused] = parts.slice(0, moves.length).map((it) => it.said[0]).reverse();
  at("refused").textContent = REFUSALS.includes(refused) ? refused : "";
}

/* Begins the session again, where a line has ended it. */
function restart(lines) {
  if (lines.length === 1 && lines[0] === START) return;
  page.lines = [START];
  asker.ask();
}

/* The parse, from the replies to all that was sent. */
function showSession(text, { lines, moves }) {
  const { report } = page, parts = repliesOf(text), sent = lines.length + moves.length;
  showTalk(moves, parts.slice(lines.length));
  const [tree, ahead, forms] = parts.slice(sent);
  if (!ahead || !ahead.shown) return restart(lines);
  const { shown } = tree, steps = standing(parts.slice(0, sent));
  const later = ahead.said.map((line) => STEP.exec(line)).filter(Boolean).map((it) => it[2]);
  if (moves.length) page.lines = condensed(steps, ENDED.includes(shown.mode));
  shown.top = showStack(shown, report);
  page.shown = shown;
  page.here = shown.mode === "running" ? [shown.top, shown.rest[0] || "$end"] : null;
  if (!page.here) forget("why-here");
  showRest(shown);
  showSteps(shown.place, steps, later, report, (place) => move(`to ${place}`));
  showTree(tree.said, report);
  showPlace(shown, steps, later, report);
  showForms(isLong() ? ["The parse has more than 2,000 steps."] : forms ? forms.said : []);
  return markAhead(steps, shown);
}

/* Marks the token ahead in the input, where no edit changed which that is. */
function markAhead(steps, { rest }) {
  if (spec.text.trim()) return;
  const places = placesOf(tokens.text);
  if (steps.some((it) => EDIT.test(it)) || !rest.length) return;
  const [start, length] = places[places.length - rest.length] || [];
  if (length) tokens.mark("ahead", start, length);
}

/* A module that has ended is begun again, and not asked the same. */
function ended(why) {
  page.moves = [];
  asker.breakOff();
  say(`The module ended: ${why}`, "bad");
}

function answered(answer, asked) {
  if (answer.broken) return ended(answer.broken);
  if (answer.report) takeReport(answer.report);
  const texts = textsNow();
  if (Object.keys(texts).some((it) => asked[it] !== texts[it])) return undefined;
  const { fault, verdict, session, uncut } = answer;
  page.moves = page.moves.slice(asked.moves.length);
  at("spent").textContent = `${answer.spent.toFixed(1)} ms`;
  at("parse").classList.toggle("stale", !session || session.status !== 0);
  for (const id of ["states", "conflicts", "counts"])
    at(id).classList.toggle("stale", ![0, 2].includes(fault.status));
  showFault(fault);
  Object.assign(page, { verdict: verdict || null, words: answer.tokens || "" });
  if (verdict) showVerdict(verdict);
  else if (uncut === undefined) say(REFUSED[fault.status], "bad");
  else showUncut(uncut);
  if (session && session.status === 0) showSession(session.text, asked);
  else if (fault.status === 2) page.shown = null;
  drawStates(page.shown && page.shown.top !== null ? page.shown.top : Number(at("state").value));
  askToTell();
  return keepAddress();
}

/* The address holds what is shown, where that isn't too long for one. */
async function setAddress() {
  clearTimeout(addressTimer);
  const { input, ...texts } = textsNow();
  const address = await addressOf({ ...texts, tokens: input, lines: page.lines });
  const fits = address.length <= LONGEST_ADDRESS;
  history.replaceState(null, "", fits ? address : "#");
  at("shared").textContent = fits ? "" : "The texts are too long for an address.";
  return fits;
}

function keepAddress() {
  clearTimeout(addressTimer);
  addressTimer = setTimeout(setAddress, LATER);
}

async function share() {
  if (!await setAddress()) return;
  try {
    await navigator.clipboard.writeText(location.href);
    at("shared").textContent = "It is copied.";
  } catch {
    at("shared").textContent = "The browser's line of the address has it.";
  }
}

/* The texts are a person's own from the first key on. */
function typed() {
  at("examples").value = "";
  nameInput();
  asker.ask();
}

/* What the input is called: a text where there is a SPEC. */
function nameInput() {
  const isText = Boolean(spec.text.trim());
  at("tokens-name").textContent = isText ? "Input, as a text" : "Input, as tokens";
  if (isText) at("looks").open = true;
}

/* Shows texts, and the parse where some lines lead. */
function open(values) {
  grammar.text = values.grammar;
  tokens.text = values.tokens;
  spec.text = values.spec || "";
  nameInput();
  page.lines = values.lines.filter((line) => SENT.test(line));
  if (!page.lines.length) page.lines = [END];
  page.moves = [];
  asker.ask();
}

function openExample() {
  const all = [...given.examples, ...given.texts, ...given.lessons];
  const example = all.find((it) => it.name === at("examples").value);
  if (example) open({ ...example, lines: [END] });
}

/* The field that a file is for, by its name. */
function fieldFor(name) {
  if (/\.(y|yy|yacc|ypp|y\+\+)$/.test(name)) return "grammar";
  return /\.(lex|spec)$/.test(name) ? "spec" : "tokens";
}

/* Takes files in place of texts: on a field its text, and else by their names. */
async function take(files, field) {
  for (const file of files) {
    if (file.size > MOST_FILE) return say(`${file.name} is too long.`, "bad");
    const editors = { grammar, tokens, spec };
    editors[field || fieldFor(file.name)].text = await file.text();
    at("examples").value = "";
  }
  nameInput();
  Object.assign(page, { lines: [END], moves: [] });
  return asker.ask();
}

function listenForFiles() {
  const on = (name, deed) => document.addEventListener(name, (event) => {
    event.preventDefault();
    document.body.classList.toggle("dropping", name === "dragover");
    deed(event);
  });
  on("dragover", () => {});
  on("dragleave", () => {});
  on("drop", (event) => {
    const holder = event.target.closest(".editor");
    const { files } = event.dataTransfer;
    take([...files], holder && files.length === 1 ? holder.id.replace("-editor", "") : null);
  });
  at("open").onchange = () => take([...at("open").files], null);
}

function key(event) {
  const keys = { ArrowLeft: "back 1", ArrowRight: "step", Home: START, End: END };
  if (event.altKey || event.ctrlKey || event.metaKey || !(event.key in keys)) return;
  if (event.target.closest("textarea, input, select, .names, .rows")) return;
  move(keys[event.key]);
  event.preventDefault();
}

function insert() {
  const name = at("token").value.trim();
  if (name) move(`insert ${name}`);
}

function breakOff() {
  page.moves = [];
  giveUp();
  asker.breakOff();
  say("Broken off. The next change is answered again.", "bad");
}

/* Takes the SPEC away: the tokens of the text stand in its place, where it has some. */
function plain() {
  if (page.words) tokens.text = page.words;
  spec.text = "";
  typed();
}

function listen() {
  const deeds = { first: () => move(START), back: () => move("back 1"), on: () => move("step"),
    last: () => move(END), insert, drop: () => move("drop"), share, break: breakOff, plain,
    "top-state": () => gotoState(page.shown && page.shown.top ? page.shown.top : 0) };
  for (const [id, deed] of Object.entries(deeds)) at(id).onclick = deed;
  at("examples").onchange = openExample;
  at("state").onchange = () => gotoState(Number(at("state").value));
  at("only-conflicts").onchange = () => drawStates(Number(at("state").value));
  at("unwinding").ontoggle = () => asker.ask();
  at("token").onkeydown = (event) => event.key === "Enter" && insert();
  at("commands").onsubmit = (event) => {
    event.preventDefault();
    if (at("line").value) move(at("line").value);
    at("line").value = "";
  };
  document.addEventListener("keydown", key);
  document.addEventListener("click", (event) => {
    const link = event.target.closest("a[href^='#']");
    if (!link) return;
    event.preventDefault();
    if (link.dataset.state) gotoState(Number(link.dataset.state));
    else document.querySelector(link.getAttribute("href")).scrollIntoView();
  });
  listenForFiles();
}

/* What is shown at first: what the address has, and else the first example. */
async function openAddress() {
  const values = await valuesOf(location.hash);
  if (!values) return false;
  at("examples").value = "";
  open(values);
  return true;
}

/* Who is busy: the worker of the parse, or that of what is told. */
function busy(who, on) {
  if (on) busy.all.add(who);
  else busy.all.delete(who);
  const is = busy.all.size > 0;
  document.body.classList.toggle("busy", is);
  clearTimeout(busy.timer);
  if (is) busy.timer = setTimeout(() => (at("break").hidden = false), LATER);
  else at("break").hidden = true;
}

busy.all = new Set();

/* The bytes of the module, which stands in the page packed. */
const moduleOf = (letters) =>
  unpacked(Uint8Array.from(atob(letters), (it) => it.charCodeAt(0)), given.size);

async function begin() {
  given = JSON.parse(at("given").textContent);
  [grammar, tokens, spec] = ["grammar", "tokens", "spec"].map((it) => new Editor(it, typed));
  page.module = moduleOf(at("module").textContent);
  const deeds = { made: request, answered, busy: (is) => busy("parse", is) };
  asker = new Asker(page.module, at("worker").textContent, deeds);
  const choices = (list) => list.map(({ name, shows }) =>
    make("option", { value: name, title: shows }, name));
  at("examples").append(make("option", { value: "" }, "choose one"), ...choices(given.examples),
    make("optgroup", { label: "Texts with a SPEC" }, ...choices(given.texts)),
    make("optgroup", { label: "Lessons" }, ...choices(given.lessons)));
  listen();
  listenToAsk();
  window.onhashchange = openAddress;
  if (!await openAddress()) {
    at("examples").value = given.first;
    openExample();
  }
}

document.addEventListener("DOMContentLoaded", begin);
