/* The automaton, from the report on a grammar. */

const STATES_SHOWN = 120;

const stateLink = (number) => make("a", { href: `#state-${number}`, "data-state": number },
  `${number}`);

/* An item with its dot; a complete one has its lookaheads after it. */
function itemRow(item, rules, name) {
  const { before, after, complete } = cutAtDot(item, rules);
  const row = make("p", { class: "item" }, `${before.join(" ")} `);
  row.append(make("span", { class: "dot", role: "img", "aria-label": "dot" }, "•"), " ");
  row.append(make("span", { class: complete ? "on" : "" }, after.join(" ")));
  const hot = name && (complete ? after.slice(1).includes(name) : after[0] === name);
  row.classList.toggle("hot", Boolean(hot));
  return row;
}

/* A button that asks why the cell of a state and a token says what it says. */
function whyButton(state, name) {
  const button = make("button", { type: "button", class: "why", title: "Why?" }, name);
  button.onclick = () => askWhy(state, name);
  return button;
}

/* A cell of a state: a token or a nonterminal, and what is done in it. */
function cellRow(state, { name, deed, number }, hot) {
  const row = make("p", { class: hot ? "item hot" : "item" });
  row.append(deed === "goto" || name === "." ? name : whyButton(state, name), ` ${deed} `);
  if (deed === "reduce") row.append(`${number}`);
  else if (deed !== "accept") row.append(stateLink(number));
  return row;
}

/* What a state counts of conflicts, by tokens. */
const counted = ([shiftReduce, reduceReduce]) => [
  shiftReduce ? `${shiftReduce} shift/reduce` : "",
  reduceReduce ? `${reduceReduce} reduce/reduce` : "",
].filter(Boolean).join(", ");

/* A state as a card; `name` is the token ahead, where the state is on top of the stack. */
function stateCard(state, rules, name) {
  const card = make("li", { class: "card" });
  const warned = state.conflicts.length ? "warned" : "";
  const hot = name ? cellFor(state, name) : null;
  card.append(make("h3", { class: warned }, `State ${state.number}`));
  card.append(...state.items.map((item) => itemRow(item, rules, name)));
  const cells = make("div", { class: "cells" });
  cells.append(...state.cells.map((cell) => cellRow(state.number, cell, cell === hot)));
  cells.append(...state.conflicts.map(({ name: token, counts }) => make("p",
    { class: "item warned" }, whyButton(state.number, token), ` conflicts: ${counted(counts)}`)));
  card.append(cells);
  card.classList.toggle("now", Boolean(name));
  return card;
}

/* So many states around one, or those with conflicts. */
function statesShown(states, middle, onlyConflicts) {
  if (onlyConflicts) return states.filter((it) => it.conflicts.length).slice(0, STATES_SHOWN);
  const from = Math.max(0, Math.min(middle - STATES_SHOWN / 2, states.length - STATES_SHOWN));
  return states.slice(from, from + STATES_SHOWN);
}

/* The states around one; the one on top of the stack is marked, by the token ahead. */
function showStates(report, rules, { middle, top, name, onlyConflicts }) {
  const shown = statesShown(report.states, middle, onlyConflicts);
  at("states").replaceChildren(...shown.map((state) => {
    const card = stateCard(state, rules, state.number === top ? name : null);
    card.id = `state-${state.number}`;
    return card;
  }));
  const above = report.states[top];
  at("top").replaceChildren(...(above ? [stateCard(above, rules, name)] : []));
  const count = report.states.length;
  at("states-shown").textContent = shown.length < count ? `${shown.length} of ${count} states`
    : `${count} states`;
  at("state").max = count - 1;
}
