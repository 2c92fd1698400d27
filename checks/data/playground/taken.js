"use strict";
/* What stands in the page of the playground: the library in its worker, and the functions of its
   script that take texts apart. */
const { readFileSync } = require("fs");
const { runInThisContext } = require("vm");

const element = (page, id) => new RegExp(`<script[^>]* id="${id}">([^]*?)</script>`).exec(page)[1];

/* The names in front of the first part that needs a browser. */
const NAMES = "STEP, EDIT, AHEAD, FAR, repliesOf, standing, condensed, rowsOf, reportOf, statesOf, "
  + "cellFor, cutAtDot, placesOf, wordsOf";

const calling = (...parts) => runInThisContext(`(() => {${parts.join("\n")}})()`);

/* What stands in the script of a page by some names, without what begins it. */
function inScript(page, names) {
  const script = page.split("<script>")[1].split("</script>")[0];
  return calling(script.replace(/^document\..*$/m, ""), `return { ${names} };`);
}

/* The calls of a library that answers elsewhere, by a request to an address. */
class Remote {
  constructor(address) {
    this.address = address;
  }

  async answer(call, texts) {
    const body = JSON.stringify({ call, texts: texts.map((it) => it.toString("base64")) });
    const { broken, bytes, ...answer } =
      await (await fetch(this.address, { method: "POST", body })).json();
    if (broken) throw new Error(broken);
    return { ...answer, bytes: Buffer.from(bytes ?? "", "base64") };
  }

  session(...texts) {
    return this.answer("session", texts);
  }

  fault(...texts) {
    return this.answer("fault", texts);
  }
}

/* The library of a page, loaded as its worker does it, or one that answers at an address. */
async function libraryIn(path) {
  if (path.startsWith("http:")) return new Remote(path);
  const page = readFileSync(path, "utf8"), { unpacked } = inScript(page, "unpacked");
  const packed = new Uint8Array(Buffer.from(element(page, "module"), "base64"));
  const bytes = unpacked(packed, JSON.parse(element(page, "given")).size);
  return calling("const self = {};", element(page, "worker"), "return libraryOf;")(bytes);
}

/* The functions of a page that take texts apart. */
const readingsIn = (path) => inScript(readFileSync(path, "utf8"), NAMES);

module.exports = { libraryIn, readingsIn };
