"use strict";
/* The worker of the page: it is sent the bytes of the module once, and then one request after
   another. What it answers is all that the page shows. */

let ready, lastGrammar = null;

const coded = (text) => new TextEncoder().encode(text);
const decoded = (bytes) => new TextDecoder().decode(bytes);

/* A fault, with its place in the text where the page has it. */
function faultOf(library, grammar, tokens) {
  const fault = library.fault(grammar, tokens);
  return { ...fault, before: decoded(grammar.subarray(0, fault.offset)).length };
}

/* The report on a grammar, but for one that was sent before. */
function reportOf(library, text, grammar) {
  if (text === lastGrammar) return null;
  const { status, bytes, ...conflicts } = library.report(grammar);
  if (status !== STATUS.done) return { status };
  lastGrammar = text;
  return { status, text: decoded(bytes), ...conflicts };
}

function sessionOf(library, grammar, tokens, commands) {
  const { status, bytes } = library.session(grammar, tokens, coded(commands));
  return status === STATUS.done ? { status, text: decoded(bytes) } : { status };
}

/* The tokens of a text by its SPEC, or why it has none. */
function cut(library, { input, spec }, grammar) {
  const files = { "grammar.y": grammar, input: coded(input), spec: coded(spec) };
  const words = ["tokens", "grammar.y", "--lex", "spec", "input"];
  const { status, out, errors } = library.ydebug(words, files, coded(""));
  return status ? { uncut: decoded(errors || coded("")) } : { tokens: decoded(out) };
}

/* The input is a text where there is a SPEC, and else tokens. */
function answer(library, request) {
  const grammar = coded(request.grammar), isText = Boolean(request.spec.trim());
  const fault = faultOf(library, grammar, coded(isText ? "" : request.input));
  const found = { id: request.id, fault };
  if (![STATUS.done, STATUS.badTokens].includes(fault.status)) return found;
  found.report = reportOf(library, request.grammar, grammar);
  if (fault.status !== STATUS.done) return found;
  Object.assign(found, isText ? cut(library, request, grammar) : { tokens: request.input });
  if (found.uncut !== undefined) return found;
  const tokens = coded(found.tokens);
  found.verdict = library.judge(grammar, tokens);
  found.session = sessionOf(library, grammar, tokens, request.commands);
  return found;
}

/* What ydebug says to one of the runs of a request. */
function told(library, { files }, { name, words, input }) {
  const bytes = Object.fromEntries(Object.entries(files).map(([it, text]) => [it, coded(text)]));
  const { status, out, errors } = library.ydebug(words, bytes, coded(input || ""));
  const [said, wrong] = [out, errors].map((it) => decoded(it || coded("")));
  return { part: name, status, said, wrong };
}

/* All that is answered to a request: a part for each run, or one answer. */
function answerAll(library, request) {
  if (!request.runs) return answer(library, request);
  for (const run of request.runs) postMessage({ id: request.id, ...told(library, request, run) });
  return { id: request.id };
}

self.onmessage = async ({ data }) => {
  if (data.module) {
    ready = libraryOf(data.module);
    return;
  }
  try {
    const library = await ready, start = performance.now();
    postMessage({ ...answerAll(library, data), spent: performance.now() - start });
  } catch (error) {
    postMessage({ id: data.id, broken: String(error) });
  }
};
