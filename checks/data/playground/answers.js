"use strict";
/* Answers lines of JSON by the module in a page: { grammar, tokens, commands }, each a text. The
   answer is a line with the status and the replies of the session, the verdict, the fault, the
   numbers of the tokens and the report, and what the script of the page reads in them. To
   { words, files, input } the answer is what ydebug says and its status. */
const { createInterface } = require("readline");
const { libraryIn, readingsIn } = require("./taken.js");

const text = (bytes) => (bytes ? Buffer.from(bytes).toString() : null);

/* What the page's script makes of replies: where the parse stands, and which lines lead there. */
function read({ repliesOf, standing, condensed, rowsOf }, replies) {
  const parts = repliesOf(replies), shown = parts.map((it) => it.shown).filter(Boolean).pop();
  const steps = standing(parts), ended = ["accepted", "failed"].includes(shown.mode);
  return { place: shown.place, stack: shown.stack, rest: shown.rest, lines: condensed(steps, ended),
    steps, rows: parts.map(({ said }) => rowsOf(said).length) };
}

/* What the page's script reads in a report: its parts, and the state on top of a stack. */
function inReport({ reportOf }, report) {
  const { rules, tokens, states } = reportOf(report);
  const lines = (list) => states.reduce((count, it) => count + it[list].length, 0);
  return { rules: rules.length, tokens: tokens.length, states: states.length, items: lines("items"),
    cells: lines("cells"), conflicts: lines("conflicts") };
}

/* What ydebug says by its arguments, over files and a standard input. */
function told(library, { words, files, input }) {
  const coded = Object.entries(files).map(([name, it]) => [name, Buffer.from(it)]);
  const { status, out, errors } =
    library.ydebug(words, Object.fromEntries(coded), Buffer.from(input));
  return { status, out: text(out), errors: text(errors) };
}

function answered(library, readings, request) {
  if (request.words) return told(library, request);
  const [grammar, tokens, commands] = ["grammar", "tokens", "commands"]
    .map((it) => Buffer.from(request[it], "latin1"));
  const session = library.session(grammar, tokens, commands);
  const report = library.report(grammar);
  const found = { status: session.status, replies: text(session.bytes),
    verdict: library.judge(grammar, tokens), fault: library.fault(grammar, tokens),
    tokens: library.tokens(grammar, tokens), places: readings.placesOf(request.tokens),
    report: text(report.bytes), conflicts: [report.shiftReduce, report.reduceReduce] };
  if (found.report !== null) found.inReport = inReport(readings, found.report);
  if (request.shown && found.replies !== null) found.read = read(readings, found.replies);
  return found;
}

async function run([page]) {
  const library = await libraryIn(page), readings = readingsIn(page);
  for await (const line of createInterface({ input: process.stdin }))
    process.stdout.write(`${JSON.stringify(answered(library, readings, JSON.parse(line)))}\n`);
}

run(process.argv.slice(2));
