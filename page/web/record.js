// A record of calls: its text in an editor, the verdict of the proved checker, and a drawing of the calls over time.
import { byId, element } from "./dom.js";
import { Editor, showWhy } from "./editor.js";
import { VERDICT, textOf } from "./player.js";
import { callsOf } from "./record_text.js";
import { placeOf } from "./script_text.js";
import { showTimeline } from "./timeline.js";
import { linesOf } from "./verdict_text.js";

const WORDS = {
  [VERDICT.LEGAL]: ["legal", "Some order of the calls has these answers, so the documented flow may have answered so."],
  [VERDICT.ILLEGAL]: ["illegal", "No order of the calls has these answers. If the record is right, this is not the documented flow."],
  [VERDICT.GAVE_UP]: ["gave up", "The search took too long, so it is not known whether some order has these answers."],
  [VERDICT.REFUSED]: ["refused", "The text is not a record. The reason is below the text."],
  [VERDICT.OUT_OF_MEMORY]: ["out of memory", "The record was not judged."],
  stopped: ["stopped", "The judge stopped, so the record was not judged. The reason is below the text."],
};

const recordRefusal = byId("record-refusal");
const recordEditor = new Editor("record");
let refusedPlace;
/** Whether the calls of the record were drawn since it was opened. */
let isDrawn = false;

/** Returns the numbers of the calls that the lines of a verdict name. */
const numbersIn = (told, calls) => new Set(linesOf(told, calls).map(({ number }) => number));

/** Shows the verdict, and the further lines that the checker printed. */
function showVerdict(status, lines) {
  const [word, meaning] = WORDS[status];
  byId("verdict").replaceChildren(element("strong", { class: `verdict-${status}` }, word), ` ${meaning}`);
  byId("told-of-record").textContent = lines.join("\n");
  byId("told-of-record").hidden = lines.length === 0;
}

/** Judges the record in the editor, and shows the verdict. */
export function judge(player) {
  let told, status;
  try {
    const answer = player.check(recordEditor.text, byId("with-order").checked);
    [told, status] = [textOf(answer).trimEnd(), answer.status];
  } catch (error) {
    [told, status] = [error.message, "stopped"];
  }
  const isRefused = [VERDICT.REFUSED, VERDICT.OUT_OF_MEMORY, "stopped"].includes(status);
  refusedPlace = undefined;
  if (isRefused) {
    const why = told.replace(/^refused: /, "");
    refusedPlace = placeOf(recordEditor.text, why);
    showVerdict(status, []);
    showWhy(recordRefusal, status === VERDICT.REFUSED ? "refused" : told, status === VERDICT.REFUSED ? why : "");
  } else {
    const [, ...lines] = told.split("\n");
    recordRefusal.replaceChildren();
    recordEditor.showMarks(undefined, "step", undefined);
    showVerdict(status, lines);
    const calls = callsOf(recordEditor.text);
    showTimeline(calls, status === VERDICT.ILLEGAL ? numbersIn(told, calls) : new Set());
    isDrawn = true;
  }
  recordEditor.showRefusal(isRefused, refusedPlace);
  recordRefusal.hidden = !isRefused;
  byId("timeline-panel").hidden = !isDrawn;
  byId("timeline-panel").classList.toggle("stale", isRefused);
  document.body.dataset.verdict = status;
}

/** Returns the text of the record. */
export const recordText = () => recordEditor.text;

/** Puts a record into the editor. */
export function openRecord(text) {
  recordEditor.open(text);
  isDrawn = false;
}

/** Selects the place at which the record is refused; returns whether there is one. */
export function goToRefusal() {
  if (refusedPlace) {
    recordEditor.select(refusedPlace);
  }
  return refusedPlace !== undefined;
}

/** Calls `change` when the record or an option of it changes, a short time after the last key. */
export function onRecordChange(change) {
  let waiting;
  recordEditor.area.addEventListener("input", () => {
    clearTimeout(waiting);
    recordEditor.showMarks(undefined, "step", undefined);
    waiting = setTimeout(change, 60);
  });
  byId("with-order").addEventListener("change", change);
}
