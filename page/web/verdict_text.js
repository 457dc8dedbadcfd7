// The lines of a verdict on a record. tools/wumsnair_tools/judging/verdict_text.py reads the same ones.
//
// A line that names a call has its number, its caller's name, and the call: `  2  t1 set 3: done`. A name may have any characters, also
// line breaks, and then lines that look like others. So a line is read by the name of the call of its number.

/** What comes before a caller's name: a bar, if there is one, and the number of the call. */
const FRONT = /[-|> !]*([0-9]+) {2}/y;

/** Control characters, those that set the direction of the text, and halves of a character. */
const CONTROL = /[\0-\x1f\x7f-\x9f\u202a-\u202e\u2066-\u2069\ud800-\udfff]/gu;

/** Returns a text with each such character as its number. */
export const visible = (text) => text.replace(CONTROL, (one) => `\\u${one.charCodeAt(0).toString(16).padStart(4, "0")}`);

/** Returns a text of several lines with each such character in a line as its number. */
export const visibleLines = (text) => text.split("\n").map(visible).join("\n");

/** Returns the line that begins at a place of a verdict on these calls. */
function lineAt(words, at, calls) {
  FRONT.lastIndex = at;
  const [front, digits] = FRONT.exec(words) ?? [];
  const name = digits && calls[digits - 1]?.by;
  const isNamed = name !== undefined && words.startsWith(name, at + front.length);
  const begin = isNamed ? at + front.length + name.length : at;
  const end = words.indexOf("\n", begin);
  const rest = words.slice(begin, end < 0 ? words.length : end);
  return isNamed ? { number: Number(digits), front, name, rest } : { number: 0, front: "", name: "", rest };
}

/** Returns the lines of a verdict: the number of the call that each names, or 0, what comes before the caller's name, the name, and the rest. */
export function linesOf(words, calls) {
  const lines = [];
  for (let at = 0; at < words.length; ) {
    const line = lineAt(words, at, calls);
    lines.push(line);
    at += line.front.length + line.name.length + line.rest.length + 1;
  }
  return lines;
}

/** Returns a verdict on these calls for a terminal. Each line of it is one line, whatever the callers' names are. */
export function visibleWords(words, calls) {
  return linesOf(words, calls).map(({ front, name, rest }) => `${front}${visible(name)}${visible(rest)}\n`).join("");
}
