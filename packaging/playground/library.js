"use strict";
/* The calls of libsulderko in WebAssembly: bytes go in, bytes and numbers come out. The memory's
   addresses, and the lengths that go with them, are wide numbers. This runs in the worker of the
   page, and in its checks. */

const STATUS = { done: 0, badGrammar: 1, badTokens: 2, noMemory: 3, tooManySets: 4 };
const FIRST_ROOM = 1 << 16, OUT_ROOM = 1 << 20, WORD = 8;

class NoMemory extends Error {}

/* What `use` gives, or the status that says that memory ran out. */
function attempted(use) {
  try {
    return use();
  } catch (error) {
    if (error instanceof NoMemory) return { status: STATUS.noMemory };
    throw error;
  }
}

/* What is known of the library's memory: blocks, bytes put and taken, numbers taken. */
class Memory {
  constructor(exports) {
    this.exports = exports;
  }

  /* Calls `use` with the addresses of blocks of some sizes, which are given back after it. */
  held(sizes, use) {
    const blocks = [];
    try {
      for (const size of sizes) {
        const at = this.exports.host_alloc(BigInt(size || 1));
        if (!at) throw new NoMemory();
        blocks.push(at);
      }
      return use(...blocks);
    } finally {
      for (const at of blocks) this.exports.host_free(at);
    }
  }

  put(at, bytes) {
    new Uint8Array(this.exports.memory.buffer).set(bytes, Number(at));
  }

  taken(at, length) {
    return new Uint8Array(this.exports.memory.buffer, Number(at), length).slice();
  }

  word(at, index = 0) {
    const view = new DataView(this.exports.memory.buffer);
    return Number(view.getBigUint64(Number(at) + WORD * index, true));
  }

  half(at, index) {
    const view = new DataView(this.exports.memory.buffer);
    return view.getUint32(Number(at) + (WORD / 2) * index, true);
  }
}

/* The calls by their names, over the exports of an instance. */
class Library {
  constructor(exports) {
    this.memory = new Memory(exports);
    this.exports = exports;
  }

  /* Calls a function with texts, each as an address and a length, and with further words. */
  called(name, texts, more) {
    return this.memory.held(texts.map((text) => text.length), (...blocks) => {
      blocks.forEach((at, index) => this.memory.put(at, texts[index]));
      const words = blocks.flatMap((at, index) => [at, BigInt(texts[index].length)]);
      return this.exports[`sulderko_${name}`](...words, ...more);
    });
  }

  /* What a call writes into so much room, and how long all of it is. */
  written(name, texts, room, width, beside) {
    return this.memory.held([room * width, WORD, beside], (out, len, numbers) => {
      const words = [out, BigInt(room), len, ...(beside ? [numbers] : [])];
      const status = this.called(name, texts, words);
      if (status !== STATUS.done) return { status, length: 0 };
      const length = this.memory.word(len), bytes = Math.min(length, room) * width;
      const told = Array.from({ length: beside / WORD }, (_, at) => this.memory.word(numbers, at));
      return { status, length, numbers: told, bytes: this.memory.taken(out, bytes) };
    });
  }

  /* The answer of a call that writes items of some bytes, and numbers beside them. */
  filled(name, texts, width = 1, beside = 0) {
    return attempted(() => {
      for (let room = FIRST_ROOM; ; ) {
        const { length, ...answer } = this.written(name, texts, room, width, beside);
        if (length <= room) return answer;
        room = length;
      }
    });
  }

  /* The answer of a call that writes a few words, which `read` takes from where they stand. */
  told(name, texts, words, read) {
    return attempted(() => this.memory.held([words * WORD], (at) => {
      const status = this.called(name, texts, [at]);
      return { status, ...read(at) };
    }));
  }

  session(grammar, tokens, commands) {
    const { status, bytes } = this.filled("session", [grammar, tokens, commands]);
    return { status, bytes };
  }

  ofTables(name, grammar) {
    const { status, bytes, numbers } = this.filled(name, [grammar], 1, 2 * WORD);
    if (status !== STATUS.done) return { status };
    return { status, bytes, shiftReduce: numbers[0], reduceReduce: numbers[1] };
  }

  table(grammar) {
    return this.ofTables("table", grammar);
  }

  report(grammar) {
    return this.ofTables("report", grammar);
  }

  tokens(grammar, tokens) {
    const { status, bytes } = this.filled("tokens", [grammar, tokens], WORD);
    if (status !== STATUS.done) return { status };
    return { status, symbols: Array.from(new BigUint64Array(bytes.buffer), Number) };
  }

  /* The verdict; where the status isn't that all is done, it says nothing. */
  judge(grammar, tokens) {
    const { memory } = this;
    return this.told("judge", [grammar, tokens], 3, (at) => ({
      outcome: memory.half(at, 0), exact: memory.half(at, 1) === 1,
      steps: memory.word(at, 1), token: memory.word(at, 2),
    }));
  }

  /* What ydebug writes by its arguments, over files and a standard input, and its status. */
  ydebug(words, files, input) {
    const texts = [new TextEncoder().encode(ended(words)), packed(files), input];
    return attempted(() => {
      for (let rooms = [OUT_ROOM, FIRST_ROOM]; ; ) {
        const { lengths, ...answer } = this.saying(texts, rooms);
        if (lengths.every((length, index) => length <= rooms[index])) return answer;
        rooms = lengths;
      }
    });
  }

  /* What it writes into so much room for its output and its errors, and how long all of it is. */
  saying(texts, rooms) {
    return this.memory.held([...rooms, WORD, WORD], (out, errors, ...lengths) => {
      const words = [out, BigInt(rooms[0]), lengths[0], errors, BigInt(rooms[1]), lengths[1]];
      const status = this.called("ydebug", texts, words);
      const found = lengths.map((at) => this.memory.word(at));
      const [said, wrong] = [out, errors].map((at, index) =>
        this.memory.taken(at, Math.min(found[index], rooms[index])));
      return { status, out: said, errors: wrong, lengths: found };
    });
  }

  fault(grammar, tokens) {
    const { memory } = this;
    return this.told("fault", [grammar, tokens], 4, (at) => ({
      code: memory.half(at, 0), line: memory.word(at, 1), offset: memory.word(at, 2),
      place: memory.word(at, 3),
    }));
  }
}

/* Texts, each with a byte of 0 after it. */
const ended = (texts) => texts.map((text) => `${text}\0`).join("");

/* Files as `sulderko_ydebug` takes them: each with its name and its length before its bytes. */
function packed(files) {
  const coder = new TextEncoder();
  const parts = Object.entries(files).flatMap(([name, bytes]) =>
    [coder.encode(ended([name, bytes.length])), bytes]);
  const all = new Uint8Array(parts.reduce((sum, it) => sum + it.length, 0));
  parts.reduce((at, it) => (all.set(it, at), at + it.length), 0);
  return all;
}

/* The library of a module's bytes. */
async function libraryOf(bytes) {
  const { instance } = await WebAssembly.instantiate(bytes, {});
  return new Library(instance.exports);
}
