// The text of a record of calls, as docs/RECORDS.md describes it.

/** A text between quotation marks, or a whole number that may have more digits than a JavaScript number can hold. */
const TEXT_OR_LONG_NUMBER = /"(?:[^"\\]|\\.)*"|-?\d{16,}/g;

/** Parses JSON without fractions. Long numbers are of type BigInt. */
export function parsed(json) {
  const marked = json.replace(TEXT_OR_LONG_NUMBER, (part) => (part.startsWith('"') ? part : `{"digits":"${part}"}`));
  return JSON.parse(marked, (_, value) => (value?.digits === undefined ? value : BigInt(value.digits)));
}

/** Returns the flow and the calls of a record that was not refused. */
export function recordOf(text) {
  try {
    const { flow, calls = [] } = parsed(text);
    return { flow, calls };
  } catch {
    const [{ flow }, ...calls] = text.split("\n").filter((line) => line.trim()).map(parsed);
    return { flow, calls };
  }
}

/** Returns the calls of a record that was not refused. */
export const callsOf = (text) => recordOf(text).calls;
