// The state of each flow after the chosen step: a column for each value, and a row for the replay cache and for each subscriber.
import { byId, element } from "./dom.js";

const panel = byId("states");

const counted = (count, word) => `${count} ${word}${count === 1 ? "" : "s"}`;

/** Returns the kind of a flow in words, for instance `shared, replay 1, extra 1, suspend`. */
function wordsOf({ kind, replay, extra, overflow }) {
  const parts = [kind.replace("_", " "), replay !== undefined && `replay ${replay}`, extra !== undefined && `extra ${extra}`];
  return [...parts, overflow?.replace("_", " ")].filter(Boolean).join(", ");
}

/** Returns a row of values whose last one is in the column before `end`; without values, a row with the word `none`. */
function valuesRow(name, values, end, width, kind, none = "empty") {
  if (values.length === 0) {
    return element("tr", {}, element("th", { scope: "row" }, name), element("td", { class: "none", colspan: width }, none));
  }
  const first = end - values.length;
  const cells = Array.from({ length: width }, (_, column) => {
    const value = column >= first && column < end ? values[column - first] : undefined;
    return value === undefined ? element("td") : element("td", { class: kind }, value);
  });
  return element("tr", {}, element("th", { scope: "row" }, name), ...cells);
}

function subscriberName({ name, own }) {
  return own.length > 0 ? `${name} (first its own ${own.join(", ")})` : name;
}

/** Returns the table of a shared flow's values. */
function bufferTable(state) {
  const { buffer, waiting, offered, cache, subscribers } = state;
  const width = Math.max(1, buffer.length + waiting.length - offered);
  const end = buffer.length;
  const rows = [
    valuesRow("buffer", buffer, end, width, "value"),
    valuesRow("replay cache", cache, end, width, "cached"),
    ...subscribers.map((each) => valuesRow(`${subscriberName(each)} receives`, each.pending, end, width, "pending", "nothing")),
  ];
  if (waiting.length > 0) {
    const names = waiting.map(({ name, value }) => `${value} (${name})`);
    rows.push(valuesRow("emitters wait with", names, width, width, "waiting"));
  }
  return element("table", {}, element("tbody", {}, ...rows));
}

/** Returns the table of a state flow's value. */
function valueTable({ value, subscribers }) {
  const rows = subscribers.map(({ name, pending }) => {
    const words = pending.length > 0 ? `receives ${pending[0]}` : "has seen the value";
    return element("tr", {}, element("th", { scope: "row" }, name), element("td", {}, element("span", { class: pending.length > 0 ? "pending" : "none" }, words)));
  });
  const first = element("tr", {}, element("th", { scope: "row" }, "value"), element("td", {}, element("span", { class: "value" }, value)));
  return element("table", {}, element("tbody", {}, first, ...rows));
}

function flowState(state) {
  const { name, flow, isRefused, count, waiting, subscribers } = state;
  const title = element("h3", {}, element("strong", {}, name), ` ${wordsOf(flow)}`);
  if (isRefused) {
    return element("section", {}, title, element("p", {}, "The flow was refused when it was made."));
  }
  const words = [counted(count, "subscriber")];
  if (waiting.length > 0) {
    words.push(waiting.length === 1 ? "1 emitter waits" : `${waiting.length} emitters wait`);
  }
  if (subscribers.length < count) {
    words.push(`the first ${subscribers.length} are shown`);
  }
  const table = state.value === undefined ? bufferTable(state) : valueTable(state);
  table.setAttribute("aria-label", `State of ${name}`);
  return element("section", {}, title, table, element("p", {}, words.join(", ")));
}

/** Shows the states of the flows. */
export function showStates(states) {
  if (states.length === 0) {
    panel.replaceChildren(element("p", {}, "The script has no flow."));
  } else {
    panel.replaceChildren(...states.map(flowState));
  }
}
