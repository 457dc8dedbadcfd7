// The place of a refusal in the text of a script, and the number of items that the chains of any text make.

/** Returns the most items that an operator makes from one item. */
function itemsOfOne(operator) {
  switch (operator?.op) {
    case "flat_map":
      return Number(operator.n);
    case "transform":
      return operator.add?.length;
    default:
      return 1;
  }
}

/** Returns the most items that a chain of a text makes from one item; for a text that is not JSON, 1. */
export function mostItemsOfOne(text) {
  let most = 1;
  try {
    JSON.parse(text, (key, value) => {
      if (key === "ops" && Array.isArray(value)) {
        // The player refuses a size that is not a number.
        most = Math.max(most, value.map(itemsOfOne).reduce((product, size) => product * (size > 1 ? size : 1), 1));
      }
      return value;
    });
  } catch {
    // The player explains what is wrong with the text.
  }
  return most;
}

/** Returns the offset of a line and a column, which are counted from 1; a column is a character. */
export function offsetOf(text, line, column) {
  let start = 0;
  for (let rest = line; rest > 1; rest -= 1) {
    start = text.indexOf("\n", start) + 1;
  }
  for (let rest = column; rest > 1; rest -= 1) {
    start += text.codePointAt(start) > 0xffff ? 2 : 1;
  }
  return start;
}

/** Returns the place at the beginning of an explanation, as the start and the end of the word there; undefined if it has none. */
export function placeOf(text, explanation) {
  const found = /^line (\d+), column (\d+): /.exec(explanation);
  if (!found) {
    return undefined;
  }
  const line = Number(found[1]);
  const from = offsetOf(text, line, Number(found[2]));
  const [word] = /^("(?:[^"\\]|\\.)*"?|[\w.+-]+|.)?/su.exec(text.slice(from));
  return { line, from, to: from + Math.max(word.length, 1) };
}
