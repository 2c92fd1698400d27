/* The parse: where it stands, its stack, the rest of the input, its steps and its trees. */

const MANY = 400;

const at = (id) => document.getElementById(id);
const faint = (text) => make("span", { class: "faint" }, text);

/* At most so many things of a list, and how many there are more. */
function some(list, draw, most = MANY) {
  const shown = list.slice(0, most).map(draw);
  const more = list.length - most;
  if (more > 0) shown.push(make("li", { class: "plain" }, `and ${more} more`));
  return shown;
}

/* The text of a rule by its number, where the report is there. */
function ruleText(report, number) {
  const rule = report && report.rules[number];
  return rule ? rule.text : "";
}

/* A step with the text of its rule, where it has one. */
function stepText(report, step) {
  const found = /^(undo )?reduce (\d+)$/.exec(step);
  return found ? `${step}  ${ruleText(report, Number(found[2]))}` : step;
}

function showStack({ stack }, report) {
  const states = report ? statesOf(report, stack) : [];
  const entries = ["", ...stack].map((name, index) => ({ name, state: states[index] }));
  const from = Math.max(0, entries.length - MANY);
  const items = entries.slice(from).map(({ name, state }, index) => {
    const item = make("li", { class: name ? "" : "plain" }, name || "·");
    if (state !== undefined && state !== null) item.append(make("small", {}, `${state}`));
    if (from + index === entries.length - 1) item.classList.add("new");
    return item;
  });
  if (from) items.unshift(make("li", { class: "plain" }, `${from} below`));
  at("stack").replaceChildren(...items);
  at("stack").scrollLeft = at("stack").scrollWidth;
  return states[states.length - 1];
}

function showRest({ rest }) {
  const items = some([...rest, "$end"], (name) => make("li", {}, name), 100);
  items[0].classList.add("ahead");
  at("rest").replaceChildren(...items);
}

/* The steps around the position: those that stand, and those that come after it. */
function showSteps(place, steps, later, report, go) {
  const all = [...steps, ...later], from = Math.max(0, place - MANY / 2);
  const items = all.slice(from, place + AHEAD).map((step, index) => {
    const position = from + index + 1;
    const text = `${`${position}`.padStart(5)}  ${stepText(report, step)}`;
    const button = make("button", { type: "button" }, text);
    button.onclick = () => go(position);
    if (position === place) button.setAttribute("aria-current", "step");
    return make("li", { class: position > place ? "later" : "" }, button);
  });
  if (from) items.unshift(make("li", { class: "faint" }, `${from} before these`));
  at("steps").replaceChildren(...items);
  inView(at("steps"), at("steps").querySelector("[aria-current]"));
}

/* Scrolls a list so that one of its things is in the middle, and nothing else. */
function inView(list, item) {
  list.scrollTop = item ? item.offsetTop - list.offsetTop - list.clientHeight / 2 : 0;
}

/* A row of a tree: a rule by its left side, or a token with its place. */
function treeRow(row, report) {
  const item = make("li", { "aria-level": row.depth + 1 });
  item.style.paddingLeft = `${Math.min(row.depth, 40) * 1.2}rem`;
  if (row.rule === undefined) {
    item.append(make("span", { class: "leaf" }, row.name));
    item.append(faint(row.place ? `  ${row.place}` : ""));
    return item;
  }
  const [left, ...body] = wordsOf(ruleText(report, row.rule));
  item.append(left ? left.replace(/:$/, "") : `rule ${row.rule}`);
  item.append(faint(`  ${row.rule}: ${body.join(" ") || "(empty)"}`));
  return item;
}

function showTree(lines, report) {
  const rows = rowsOf(lines);
  const items = rows.slice(0, 5 * MANY).map((row) => treeRow(row, report));
  const more = rows.length - items.length;
  if (more) items.push(make("li", { class: "faint" }, `and ${more} rows more`));
  at("tree").replaceChildren(...items);
}

/* The forms of an accepted parse, or why there are none. */
function showForms(forms) {
  at("unwound").replaceChildren(...some(forms, (form) => make("li", {}, form), 5 * MANY));
}

const ENDED = ["accepted", "failed"];
const MODES = { accepted: "accepted", failed: "given up", popping: "popping" };

/* Where the parse stands, and what comes next. */
function showPlace({ place, mode, counter, errors }, steps, later, report) {
  const ended = ENDED.includes(mode);
  const last = place ? `${place}: ${stepText(report, steps[place - 1])}` : "0: nothing is done yet";
  at("done").textContent = ended || !later.length ? last
    : `${last}\nnext: ${stepText(report, later[0])}`;
  at("done").className = `done ${mode === "failed" || mode === "popping" ? "e" : ""}`;
  const count = ended ? place : place + later.length;
  const open = ended || later.length < AHEAD ? "" : "or more";
  const more = [MODES[mode], errors ? `errors ${errors}` : "", counter ? `counter ${counter}` : ""];
  at("place").textContent = [`${place} of ${count}`, open, ...more].filter(Boolean).join(", ");
}
