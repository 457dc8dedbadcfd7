// The marble diagram of the drawer, and the column of a step in it.
import { byId, element } from "./dom.js";

const STYLE = `
:host { display: block }
svg { display: block }
.drawn { width: max-content; min-width: 100% }
.names { position: sticky; left: 0; width: 0; height: 0; pointer-events: none }
.names span { position: absolute; padding: 0 6px 0 8px; background: var(--panel); font: var(--mono); line-height: 30px; white-space: pre }
button { font: inherit; margin: 12px }
.chosen { fill: var(--column); stroke: var(--accent) }`;

/** The distance by which a column's mark begins before its number, and the height of the step's word above the number. */
const BEFORE = 5, ABOVE = 70;

/** The height of the box of a lane's name above the line on which the name is written. */
const RISE = 19;

const host = byId("picture");
// In a root of its own the picture's style does not affect the page.
const root = host.attachShadow({ mode: "open" });

let columns = [];
let drawn = "";

/** Returns the text of the diagram that is shown; empty if none is. */
export const diagram = () => drawn;

/** Shows a diagram: its text, the boxes of its columns, and the names of its lanes. */
export function showDiagram({ svg, columns: boxes, lanes }) {
  drawn = svg;
  root.innerHTML = `<style>${STYLE}</style><div class="drawn">${svg}</div>`;
  columns = boxes;
  root.querySelector("svg").before(namesOf(lanes));
}

/** Returns copies of the names of the lanes, each over its place, which stay visible when the diagram is scrolled sideways. */
function namesOf(lanes) {
  const names = lanes.map(({ y, name }) => element("span", { style: `top: ${y - RISE}px` }, name));
  return element("div", { class: "names", "aria-hidden": "true" }, ...names);
}

/** Returns the width that the names of the lanes cover at the left of the diagram, in pixels. */
export const widthOfNames = () => [...root.querySelectorAll(".names span")].reduce((most, name) => Math.max(most, name.offsetWidth), 0);

/** Shows a button in place of a diagram, and calls `draw` when it is pressed. */
export function offerDiagram(words, draw) {
  drawn = "";
  columns = [];
  root.innerHTML = `<style>${STYLE}</style><button></button>`;
  const button = root.querySelector("button");
  button.textContent = words;
  button.addEventListener("click", draw);
}

/** Marks the column of a step, and returns the mark; undefined if the step has none. */
export function markColumn(step) {
  root.querySelector(".chosen")?.remove();
  const column = columns.find((each) => each.step === step);
  if (!column) {
    return undefined;
  }
  const { x, y, width, bottom } = column;
  const box = `x="${x - BEFORE}" y="${y - 12}" width="${width}" height="${Math.max(20, bottom - y)}"`;
  root.querySelector("svg > rect.p").insertAdjacentHTML("afterend", `<rect class="chosen" ${box} rx="6"/>`);
  return root.querySelector(".chosen");
}

/** Calls `choose` with the step whose column is clicked. */
export function onColumnClick(choose) {
  root.addEventListener("click", (event) => {
    const svg = root.querySelector("svg");
    if (!svg?.contains(event.target)) {
      return;
    }
    const { left, top } = svg.getBoundingClientRect();
    const [x, y] = [event.clientX - left + BEFORE, event.clientY - top];
    const hit = (each) => each.x <= x && x < each.x + each.width && each.y - ABOVE <= y && y <= each.bottom;
    choose(columns.find(hit)?.step ?? 0);
  });
}
