"use strict";
/* Answers lines of JSON by `ydebug` in a module: { words, files, input }, each as it is laid out
   for the call, in base64. The answer is a line { status, out, errors }, or { broken } where the
   module trapped; the next line then gets a module of its own. */
const { createInterface } = require("readline");
const { readFileSync } = require("fs");

const ROOM = 1 << 12, WORD = 8;

class Ydebug {
  constructor(exports) {
    this.exports = exports;
  }

  /* A block of some bytes; none is nowhere. */
  block(size) {
    const at = size ? this.exports.host_alloc(BigInt(size)) : 0n;
    if (size && !at) throw new Error("no memory for what is given");
    return at;
  }

  put(bytes) {
    const at = this.block(bytes.length);
    new Uint8Array(this.exports.memory.buffer).set(bytes, Number(at));
    return at;
  }

  taken(at, length) {
    return Buffer.from(new Uint8Array(this.exports.memory.buffer, Number(at), length));
  }

  word(at) {
    return Number(new DataView(this.exports.memory.buffer).getBigUint64(Number(at), true));
  }

  /* What a run writes into so much room, of which it fills the beginning, and how long it is. */
  into(room, length, at) {
    const whole = this.word(length);
    return { whole, bytes: this.taken(at, Math.min(whole, room)) };
  }

  /* A run that has so much room for each of its outputs. */
  run(given, roomOut, roomErrors) {
    const parts = given.map((bytes) => [this.put(bytes), BigInt(bytes.length)]);
    const [out, errors, length, errorsLength] = [roomOut, roomErrors, WORD, WORD]
      .map((size) => this.block(size));
    const status = this.exports.sulderko_ydebug(...parts.flat(), out, BigInt(roomOut), length,
      errors, BigInt(roomErrors), errorsLength);
    const told = { status, out: this.into(roomOut, length, out),
      errors: this.into(roomErrors, errorsLength, errors) };
    for (const at of [...parts.map(([it]) => it), out, errors, length, errorsLength])
      this.exports.host_free(at);
    return told;
  }

  /* A run with all that it writes. Where a smaller room was filled by something else than the
     beginning of that, or the status was another one, that is a fault. */
  whole(given) {
    const first = this.run(given, ROOM, ROOM), { out, errors } = first;
    if (out.whole <= ROOM && errors.whole <= ROOM) return first;
    const second = this.run(given, out.whole, errors.whole);
    const same = ["out", "errors"].every((it) => second[it].whole === first[it].whole
      && second[it].bytes.subarray(0, ROOM).equals(first[it].bytes));
    if (!same || first.status !== second.status) throw new Error("the beginning is another one");
    return second;
  }
}

async function answered(module, given) {
  try {
    const { status, out, errors } = module.whole(given);
    return { status, out: out.bytes.toString("base64"), errors: errors.bytes.toString("base64") };
  } catch (error) {
    return { broken: String(error) };
  }
}

async function run([path]) {
  const module = await WebAssembly.compile(readFileSync(path));
  let ydebug = null;
  for await (const line of createInterface({ input: process.stdin })) {
    ydebug ??= new Ydebug((await WebAssembly.instantiate(module, {})).exports);
    const request = JSON.parse(line);
    const given = ["words", "files", "input"].map((it) => Buffer.from(request[it], "base64"));
    const answer = await answered(ydebug, given);
    if (answer.broken) ydebug = null;
    process.stdout.write(`${JSON.stringify(answer)}\n`);
  }
}

run(process.argv.slice(2));
