"use strict";
/* The program ystep over the module in a page, or over one that answers at an address, but for its
   help: its scenarios run with it. */
const { closeSync, openSync, readFileSync, readSync, writeSync } = require("fs");
const { libraryIn } = require("./taken.js");

/* One byte more than a grammar may have shows that it is too long, even where it never ends. */
const GRAMMAR_BYTES = (1 << 20) + 1;

class Ended extends Error {
  constructor(message, status) {
    super(message);
    this.status = status;
  }
}

function say(stream, bytes) {
  for (let at = 0; at < bytes.length;) at += writeSync(stream, bytes, at);
}

/* The bytes of a stream, or the first of them. */
function read(stream, most) {
  const parts = [], part = Buffer.alloc(1 << 16);
  for (let length = 0, count = 1; count && length < most; length += count) {
    count = readSync(stream, part, 0, Math.min(part.length, most - length), null);
    parts.push(Buffer.from(part.subarray(0, count)));
  }
  return Buffer.concat(parts);
}

function fileIn(path, most = Infinity) {
  let stream;
  try {
    stream = openSync(path);
    return read(stream, most);
  } catch {
    throw new Ended(`cannot read ${path}`, 3);
  } finally {
    if (stream !== undefined) closeSync(stream);
  }
}

function commands() {
  try {
    return read(0, Infinity);
  } catch {
    throw new Ended("read fault", 3);
  }
}

/* What `get` gives, or why the program ends, which is told later; then there are no bytes. */
function later(get) {
  try {
    return [get(), null];
  } catch (ended) {
    return [Buffer.alloc(0), ended];
  }
}

/* Why there is no session. */
async function refusal(library, status, grammar, tokens) {
  if (status === 3) return new Ended("no memory", 3);
  if (status === 4) return new Ended("B1", 3);
  const { code, line, place } = await library.fault(grammar, tokens);
  if (status === 1) return new Ended(`G${code}${line ? ` at line ${line}` : ""}`, 1);
  return new Ended(`K${code}${place ? ` at token ${place}` : ""}`, 1);
}

/* Writes what the session replies; a fault of a text comes before one of a file. */
async function run([page, ...words]) {
  if (words.length !== 2) throw new Ended("", 2);
  const grammar = fileIn(words[0], GRAMMAR_BYTES);
  const [tokens, unread] = later(() => fileIn(words[1]));
  const [lines, unheard] = unread ? [Buffer.alloc(0), null] : later(commands);
  const library = await libraryIn(page);
  const { status, bytes } = await library.session(grammar, tokens, lines);
  if (status) throw await refusal(library, status, grammar, tokens);
  if (unread || unheard) throw unread || unheard;
  const [, unwritten] = later(() => say(1, bytes));
  if (unwritten) throw new Ended("write fault", 3);
}

run(process.argv.slice(2)).catch((ended) => {
  if (!ended.status) throw ended;
  const message = ended.status === 2 ? "usage: ystep grammar tokens" : `ystep: ${ended.message}`;
  say(2, Buffer.from(`${message}\n`));
  process.exitCode = ended.status;
});
