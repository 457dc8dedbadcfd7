// A drawing of the calls of a record: a lane for each caller, and a bar for each call, from its beginning to its end.
import { byId, element } from "./dom.js";

/** A record with more calls is not drawn. */
const MOST_CALLS = 400;

const timeline = byId("timeline");

/** Returns an answer in words. */
function answerWords(answer) {
  if (answer === undefined) {
    return "pending";
  }
  if (Array.isArray(answer) || typeof answer !== "object" || answer === null) {
    return Array.isArray(answer) ? `[${answer.join(", ")}]` : String(answer);
  }
  return "old" in answer ? `${answer.old} to ${answer.value}` : String(answer.value);
}

/** Returns a call in words, for instance `set 3: done`. */
function callWords({ call, expect, value, first, answer }) {
  const own = first && `[${first.join(", ")}]`;
  return `${[call, expect, value, own].filter((each) => each !== undefined).join(" ")}: ${answerWords(answer)}`;
}

/** Returns the bar of a call. The columns are the moments of the record, in order. */
function barOf(each, columns, wrong) {
  const { number, begin, end } = each;
  const last = end === undefined ? columns.size : columns.get(end);
  const kind = ["bar", wrong.has(number) && "wrong", end === undefined && "pending"].filter(Boolean).join(" ");
  const style = `grid-column: ${columns.get(begin) + 1} / ${last + 2}`;
  const words = `${number}: ${callWords(each)}, from ${begin} ${end === undefined ? "on" : `to ${end}`}`;
  return element("li", { class: kind, style, title: words }, element("b", {}, number), ` ${callWords(each)}`);
}

/** Shows these calls. Those with the numbers in `wrong` have no order. */
export function showTimeline(calls, wrong) {
  if (calls.length > MOST_CALLS) {
    timeline.replaceChildren(element("p", {}, `${calls.length} calls are too many to draw.`));
    return;
  }
  const numbered = calls.map((each, at) => ({ ...each, number: at + 1 }));
  const moments = numbered.flatMap(({ begin, end }) => (end === undefined ? [begin] : [begin, end]));
  const columns = new Map([...new Set(moments)].sort((a, b) => (a < b ? -1 : 1)).map((moment, at) => [moment, at]));
  const lanes = [...byCaller(numbered)].map(([by, own], at) => {
    const name = `lane-${at}`;
    const list = element("ol", { "aria-labelledby": name }, ...own.map((each) => barOf(each, columns, wrong)));
    const style = `--columns: ${columns.size + 1}`;
    return element("div", { class: "lane", style }, element("h3", { id: name }, element("strong", {}, by)), list);
  });
  timeline.replaceChildren(...lanes);
}

/** Returns the calls of each caller. */
function byCaller(calls) {
  const lanes = new Map();
  for (const each of calls) {
    lanes.set(each.by, [...(lanes.get(each.by) ?? []), each]);
  }
  return lanes;
}
