// The steps of a script, with their lines and the rules behind these.
import { byId, element } from "./dom.js";

const rows = byId("rows");

/** The most rows that are in the page at once. For a longer script these are the rows around the chosen step. */
const MOST_ROWS = 400;

let allLines = [];
let firstRow = 0;

/** Returns the row of a line. That of a flow that was refused has no step. */
function rowOf({ step = 0, words = "", line, rule = "" }) {
  const cells = [words, line, rule].map((text) => element("td", {}, text));
  return element("tr", { "data-step": step }, element("th", { scope: "row" }, step || ""), ...cells);
}

/** Returns a row with a button for further rows before or after the shown ones; nothing if there are none. */
function furtherRows(count, words, start) {
  if (count <= 0) {
    return [];
  }
  const button = element("button", { type: "button" }, `${count} ${words} lines`);
  button.addEventListener("click", () => {
    const panel = byId("listing");
    showRows(start);
    panel.focus();
    panel.scrollTop = words === "later" ? 0 : panel.scrollHeight;
  });
  return [element("tr", { class: "further" }, element("td", { colspan: 4 }, button))];
}

/** Shows the rows that begin at a place. */
function showRows(start) {
  firstRow = Math.max(0, Math.min(start, allLines.length - MOST_ROWS));
  const end = Math.min(firstRow + MOST_ROWS, allLines.length);
  const earlier = furtherRows(firstRow, "earlier", firstRow - MOST_ROWS);
  const later = furtherRows(allLines.length - end, "later", end);
  rows.replaceChildren(...earlier, ...allLines.slice(firstRow, end).map(rowOf), ...later);
}

/** Shows a row for each line of a trace. */
export function showLines(lines) {
  allLines = lines;
  showRows(0);
}

/** Marks the row of a step, and returns it; undefined if the step has none. */
export function markLine(step) {
  rows.querySelector("[aria-current]")?.removeAttribute("aria-current");
  const at = step ? allLines.findIndex((each) => each.step === step) : -1;
  if (at < 0) {
    return undefined;
  }
  if (at < firstRow || at >= firstRow + MOST_ROWS) {
    showRows(at - MOST_ROWS / 2);
  }
  const row = rows.querySelector(`[data-step="${step}"]`);
  row.setAttribute("aria-current", "step");
  return row;
}

/** Returns the step of the row of an event; undefined if the event is not in a row. */
export function stepOfEvent(event) {
  const step = event.target.closest("tr")?.dataset.step;
  return step === undefined ? undefined : Number(step);
}
