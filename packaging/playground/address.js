/* What is shown as the part of an address after `#`, and back: JSON, compressed where the browser
   can, in the letters of base64 that an address may have. */

const LONGEST_ADDRESS = 60000;

const toLetters = (bytes) => btoa(Array.from(bytes, (it) => String.fromCharCode(it)).join(""))
  .replaceAll("+", "-").replaceAll("/", "_").replaceAll("=", "");

const fromLetters = (letters) => Uint8Array.from(
  atob(letters.replaceAll("-", "+").replaceAll("_", "/")), (it) => it.charCodeAt(0));

async function through(stream, bytes) {
  const made = new Blob([bytes]).stream().pipeThrough(stream);
  return new Uint8Array(await new Response(made).arrayBuffer());
}

/* The part of an address for some values; its first letter says how it is written. */
async function addressOf(values) {
  const plain = new TextEncoder().encode(JSON.stringify(values));
  if (typeof CompressionStream === "undefined") return `#j${toLetters(plain)}`;
  return `#z${toLetters(await through(new CompressionStream("deflate"), plain))}`;
}

/* The values of a part of an address; none where it has none. */
async function valuesOf(address) {
  const [, kind, letters] = /^#([zj])([\w-]+)$/.exec(address) || [];
  if (!kind) return null;
  try {
    const bytes = fromLetters(letters);
    const plain = kind === "j" ? bytes
      : await through(new DecompressionStream("deflate"), bytes);
    const values = JSON.parse(new TextDecoder().decode(plain));
    const fits = ["grammar", "tokens"].every((it) => typeof values[it] === "string")
      && ["string", "undefined"].includes(typeof values.spec)
      && Array.isArray(values.lines) && values.lines.every((it) => typeof it === "string");
    return fits ? values : null;
  } catch {
    return null;
  }
}
