// A link that holds a script or a record: `#e=NAME` for an example, `#s=TEXT` for any script, compressed, `#r=NAME` and `#c=TEXT` for
// a record of calls, and `#t=NUMBER` for a stop of the tour.

/** The letters before an example's name, and before a text, in a link. */
export const SCRIPT_LINK = { example: "e", text: "s" };
export const RECORD_LINK = { example: "r", text: "c" };

const toLetters = (bytes) => btoa(Array.from(bytes, (byte) => String.fromCharCode(byte)).join("")).replaceAll("+", "-").replaceAll("/", "_").replace(/=+$/, "");

const fromLetters = (letters) => bytesOf(letters.replaceAll("-", "+").replaceAll("_", "/"));

/** Returns the bytes that base64 stands for. */
export function bytesOf(base64) {
  return Uint8Array.from(atob(base64), (sign) => sign.charCodeAt(0));
}

/** The most bytes that a link may unpack to. The player refuses a script that is longer than a sixteenth of that. */
const MOST_UNPACKED = 1 << 24;

/** Returns the bytes that a stream makes of these bytes. Throws if they are more than `most`. */
export async function passed(bytes, stream, most = Infinity) {
  const reader = new Blob([bytes]).stream().pipeThrough(stream).getReader();
  const parts = [];
  let length = 0;
  for (let next = await reader.read(); !next.done; next = await reader.read()) {
    length += next.value.length;
    if (length > most) {
      await reader.cancel();
      throw new RangeError(`more than ${most} bytes`);
    }
    parts.push(next.value);
  }
  return new Uint8Array(await new Blob(parts).arrayBuffer());
}

/** Returns the link of a text. */
export async function linkOf(text, examples, letters) {
  const name = Object.keys(examples).find((each) => examples[each] === text);
  if (name) {
    return `#${letters.example}=${name}`;
  }
  return `#${letters.text}=${toLetters(await passed(new TextEncoder().encode(text), new CompressionStream("deflate-raw")))}`;
}

/** Returns the name of the example that a link names; an empty text if it names none. */
export const exampleOf = (link, letters) => (link.startsWith(`#${letters.example}=`) ? link.slice(3) : "");

/** Returns the text that a link holds; undefined if it holds none of this kind. */
export async function textIn(link, examples, letters) {
  const name = exampleOf(link, letters);
  if (name) {
    return Object.hasOwn(examples, name) ? examples[name] : undefined;
  }
  if (link.startsWith(`#${letters.text}=`)) {
    return new TextDecoder().decode(await passed(fromLetters(link.slice(3)), new DecompressionStream("deflate-raw"), MOST_UNPACKED));
  }
  return undefined;
}

/** Returns whether a link is one of a record. */
export const isRecordLink = (link) => /^#[rc]=/.test(link);

/** Returns the stop of the tour that a link names, from 0; undefined if it names none. */
export function stopOf(link) {
  const found = /^#t=([1-9]\d?)$/.exec(link);
  return found ? Number(found[1]) - 1 : undefined;
}
