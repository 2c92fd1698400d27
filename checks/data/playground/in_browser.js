"use strict";
/* Answers requests in a browser by the library over a module, after the library's own script:
   { call, texts } by a session, a fault or `ydebug`, each text in base64. The answer has its bytes
   in base64 too; it is { broken } where the module trapped, and the next request then gets an
   instance of its own. */
const ROOM = 1 << 16;

const bytesOf = (text) => Uint8Array.from(atob(text), (it) => it.charCodeAt(0));

const textOf = (bytes) => btoa(Array.from(bytes, (it) => String.fromCharCode(it)).join(""));

/* The calls that are asked for. */
const CALLS = {
  session: (library, texts) => library.session(...texts),
  fault: (library, texts) => library.fault(...texts),
  ydebug(library, texts) {
    const first = library.saying(texts, [ROOM, ROOM]);
    const { lengths } = first;
    return lengths.every((it) => it <= ROOM) ? first : library.saying(texts, lengths);
  },
};

/* An answer with its bytes as texts. */
const packedAnswer = (answer) => Object.fromEntries(Object.entries(answer)
  .map(([name, it]) => [name, it instanceof Uint8Array ? textOf(it) : it]));

/* A function that answers, over the bytes of a module. */
async function answering(bytes) {
  const module = await WebAssembly.compile(bytes);
  let library = null;
  return async ({ call, texts }) => {
    library ??= new Library((await WebAssembly.instantiate(module, {})).exports);
    try {
      return packedAnswer(CALLS[call](library, texts.map(bytesOf)));
    } catch (error) {
      library = null;
      return { broken: String(error) };
    }
  };
}
