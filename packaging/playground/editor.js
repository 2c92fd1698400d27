/* A field for a text, with the numbers of its lines, and marks at places of the text. */

const ROW = 20, TAB = 8;

function make(tag, attributes, ...children) {
  const element = document.createElement(tag);
  for (const [key, value] of Object.entries(attributes)) element.setAttribute(key, value);
  element.append(...children);
  return element;
}

/* How many columns a text takes, with tabs. */
function columns(text) {
  let count = 0;
  for (const sign of text) count += sign === "\t" ? TAB - (count % TAB) : 1;
  return count;
}

/* The line of a place in a text, counted from 0, and where that line begins. */
function lineAt(text, place) {
  const before = text.slice(0, place);
  return { line: before.split("\n").length - 1, start: before.lastIndexOf("\n") + 1 };
}

class Editor {
  constructor(id, changed) {
    const holder = document.getElementById(`${id}-editor`);
    this.gutter = make("div", { class: "gutter", "aria-hidden": "true" });
    this.marks = make("div", { class: "marks", "aria-hidden": "true" });
    this.area = make("textarea", { id, spellcheck: "false", wrap: "off", autocapitalize: "off",
      autocomplete: "off", "aria-describedby": `${id}-fault` });
    const field = make("div", { class: "field" }, this.marks, this.area);
    holder.append(this.gutter, field);
    holder.style.height = `${Number(holder.dataset.rows) * ROW + 10}px`;
    this.holder = holder;
    this.area.addEventListener("input", () => {
      this.clear();
      this.number();
      changed();
    });
    this.area.addEventListener("scroll", () => this.scrolled());
  }

  get text() {
    return this.area.value;
  }

  set text(text) {
    this.area.value = text;
    this.clear();
    this.number();
    this.scrolled();
  }

  /* The numbers of the lines; the one with a fault is marked. */
  number(marked) {
    const count = this.text.split("\n").length;
    const lines = Array.from({ length: count }, (_, at) => at + 1);
    if (!(marked < count)) {
      this.gutter.textContent = lines.join("\n");
    } else {
      const before = lines.slice(0, marked).map((it) => `${it}\n`).join("");
      const after = lines.slice(marked + 1).map((it) => `\n${it}`).join("");
      this.gutter.replaceChildren(before, make("span", { class: "at" }, `${marked + 1}`), after);
    }
    this.scrolled();
  }

  scrolled() {
    const { scrollLeft, scrollTop } = this.area;
    this.gutter.scrollTop = scrollTop;
    this.marks.style.transform = `translate(${-scrollLeft}px, ${-scrollTop}px)`;
  }

  clear() {
    this.marks.replaceChildren();
    this.area.removeAttribute("aria-invalid");
  }

  put(kind, line, column, width, text = "") {
    const mark = make("span", { class: kind }, text);
    mark.style.top = `${line * ROW}px`;
    if (kind !== "line") mark.style.left = `${column}ch`;
    if (width) mark.style.width = `${width}ch`;
    this.marks.append(mark);
  }

  /* Marks a part of the text on its line. */
  mark(kind, place, length) {
    const { text } = this, { line, start } = lineAt(text, place);
    const column = columns(text.slice(start, place));
    this.put(kind, line, column, columns(text.slice(place, place + length)));
    return { line, column };
  }

  /* The place in the text of a line and a column in bytes, both counted from 1. */
  placeOf(line, column) {
    const lines = this.text.split("\n"), coder = new TextEncoder();
    const before = coder.encode(lines[line - 1] || "").subarray(0, column - 1);
    return lines.slice(0, line - 1).reduce((sum, it) => sum + it.length + 1, 0)
      + new TextDecoder().decode(before).length;
  }

  /* Goes to a line and a column. */
  select(line, column) {
    const place = this.placeOf(line, column);
    this.area.focus();
    this.area.setSelectionRange(place, place + 1);
    this.area.scrollTop = Math.max(0, (line - 4) * ROW);
  }

  /* Shows a fault at a line and a column. */
  faultAt(line, column, said) {
    this.fault(this.placeOf(line, column), 1, said);
  }

  /* Shows a fault at a place: its line, the place, and below it what is said. */
  fault(place, length, said) {
    this.clear();
    this.area.setAttribute("aria-invalid", "true");
    const { line, column } = this.mark("spot", place, length);
    const next = columns(this.text.split("\n")[line + 1] || "");
    this.put("line", line);
    this.put("bubble", line + 1, next ? Math.max(column, next + 1) : column, 0, said);
    this.number(line);
  }
}
