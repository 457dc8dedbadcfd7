// The page. It plays a script as it is typed, and shows each step in the script, in the diagram, among the lines, and by the state of
// the flows after it.
import { diagram, markColumn, offerDiagram, onColumnClick, showDiagram, widthOfNames } from "./diagram.js";
import { bringInto, byId, element } from "./dom.js";
import { Editor, showWhy } from "./editor.js";
import { markLine, showLines, stepOfEvent } from "./lines.js";
import { RECORD_LINK, SCRIPT_LINK, bytesOf, exampleOf, isRecordLink, linkOf, passed, stopOf, textIn } from "./link.js";
import { Player, STATUS, hasWideMemories, textOf } from "./player.js";
import { goToRefusal, judge, onRecordChange, openRecord, recordText } from "./record.js";
import { mostItemsOfOne, placeOf } from "./script_text.js";
import { showStates } from "./state_panel.js";
import { isRecordTab, listenToTabs, showTab } from "./tabs.js";
import { TOUR } from "./tour.js";
import { statesAfter } from "./trace.js";

/** A script with more steps is drawn only if its button is pressed. */
const MOST_AT_ONCE = 1500;

/** The most steps that a script may have. */
const MOST_STEPS = 10_000;

/** A script with a chain that makes more items from one item may take long to play, and the page does nothing else meanwhile. It is
 * played only if its button is pressed. */
const MOST_ITEMS = 100_000;

/** The record that is shown first. */
const FIRST_RECORD = "illegal_state_stale";

/** How long the page waits after a key before it plays, in milliseconds: for a short text, and for a long one. */
const PAUSE = { short: 60, long: 400, longFrom: 50_000 };

const [list, recordList, refusal, slider, at, told, said] = ["examples", "records", "refusal", "step", "at", "told", "said"].map(byId);
const editor = new Editor("script");

let player;
let examples = {};
let records = {};
let chosen = 0;
/** The result of a script: its text and its trace, or the place at which it is refused. */
const NOTHING = { text: undefined, trace: undefined, steps: [], place: undefined };
let shown = { ...NOTHING };

const stepCount = () => shown.steps.length;

/** Whether the script in the editor is the one that was played. */
const isPlayed = () => !shown.place && editor.text === shown.text;

// ---- playing

/** The script that may take long to play, once its button was pressed. */
let allowed;

/** Plays the script in the editor, and shows the result. */
function play() {
  if (mostItemsOfOne(editor.text) > MOST_ITEMS && editor.text !== allowed) {
    offerToPlay();
    return;
  }
  const start = performance.now();
  const bytes = new TextEncoder().encode(editor.text);
  try {
    const answer = player.trace(MOST_AT_ONCE, bytes);
    if (answer.status === STATUS.GIVEN) {
      showPlayed(JSON.parse(textOf(answer)));
    } else {
      showRefused(textOf(answer).trimEnd(), textOf(player.explain(editor.text)).trimEnd());
    }
    document.body.dataset.status = answer.status;
  } catch (error) {
    showRefused("the player stopped", error.message);
    document.body.dataset.status = "stopped";
  }
  const took = (performance.now() - start).toFixed(1);
  told.textContent = `${bytes.length} bytes, ${took} ms`;
  document.body.dataset.took = took;
}

/** Shows a button in place of the result of a script. */
function offerToPlay() {
  showRefused("not played yet", `A chain may make more than ${MOST_ITEMS} items of one item, which may take long.\n`);
  const button = element("button", { type: "button" }, "Play it");
  button.addEventListener("click", () => {
    allowed = editor.text;
    play();
  });
  refusal.append(button);
  document.body.dataset.status = "asked";
}

/** Shows the trace of the script. Nothing of it is played again, whichever step is chosen. */
function showPlayed(trace) {
  shown = { text: editor.text, trace, steps: trace.lines.filter(({ step }) => step), place: undefined };
  setRefused(false);
  byId("count").textContent = `${trace.lines.length}`;
  slider.max = stepCount();
  showLines(trace.lines);
  if (trace.picture) {
    showDiagram(trace.picture);
  } else {
    offerDiagram(`Draw all ${stepCount()} steps`, draw);
  }
  byId("save").disabled = !diagram();
  choose(Math.min(chosen, stepCount()), false);
}

/** Draws a script that has too many steps to be drawn each time that its text changes. */
function draw() {
  showDiagram(JSON.parse(textOf(player.trace(MOST_STEPS, shown.text))).picture);
  markColumn(chosen);
  byId("save").disabled = !refusal.hidden;
}

/** Shows why the script is refused. The result from before the change stays, in pale colours. */
function showRefused(line, why) {
  shown.place = placeOf(editor.text, why);
  showWhy(refusal, line, why);
  setRefused(true);
}

function setRefused(isRefused) {
  refusal.hidden = !isRefused;
  if (!isRefused) {
    // A screen reader reads the refusal with the script even while it is hidden.
    refusal.replaceChildren();
  }
  editor.showRefusal(isRefused, shown.place);
  byId("right").classList.toggle("stale", isRefused);
  byId("right").classList.toggle("bare", isRefused && !shown.trace);
  byId("save").disabled = isRefused;
}

// ---- the chosen step

/** Chooses a step: marks it in the script, in the diagram and among the lines, and shows the states after it. */
function choose(step, scrolls = true) {
  chosen = Math.max(0, Math.min(step, stepCount()));
  const words = chosen ? `step ${chosen} of ${stepCount()}` : `before the first of ${stepCount()} steps`;
  slider.value = chosen;
  slider.setAttribute("aria-valuetext", words);
  at.textContent = words;
  byId("after").textContent = chosen ? `after step ${chosen}` : "before the first step";
  const row = markLine(chosen);
  const mark = markColumn(chosen);
  const line = shown.steps[chosen - 1];
  if (isPlayed()) {
    editor.showMarks(line && [line.from, line.to], "step", undefined);
  }
  if (shown.trace) {
    showStates(statesAfter(shown.trace, chosen));
    document.body.dataset.asked = chosen;
  }
  if (scrolls) {
    said.textContent = line ? `${words}: ${line.words}: ${line.line}. ${line.rule}` : words;
    if (row) {
      bringInto(byId("listing"), row);
    }
    if (mark) {
      bringInto(byId("picture"), mark, widthOfNames());
    }
    editor.scrollToMark();
  }
}

// ---- scripts and links

let links = 0;

/** Writes a link to what is shown into the address, unless a later call does. */
async function keepLink() {
  const mine = (links += 1);
  const isRecord = isRecordTab();
  const letters = isRecord ? RECORD_LINK : SCRIPT_LINK;
  const link = await (isRecord ? linkOf(recordText(), records, letters) : linkOf(editor.text, examples, letters));
  if (mine === links) {
    history.replaceState(null, "", link);
    (isRecord ? recordList : list).value = exampleOf(link, letters);
  }
}

function open(text, step = 0) {
  editor.open(text);
  shown = { ...NOTHING };
  chosen = step;
  play();
}

/** Shows the tab of records, with its last record, or the tab of scripts. */
async function takeTab(isRecord) {
  showTab(isRecord);
  byId("tour").hidden = true;
  if (isRecord) {
    judge(player);
  }
  await keepLink();
}

async function openLink() {
  const mine = (links += 1);
  const stop = stopOf(location.hash);
  if (stop !== undefined) {
    showStop(stop);
    return;
  }
  const isRecord = isRecordLink(location.hash);
  const from = isRecord ? [records, RECORD_LINK] : [examples, SCRIPT_LINK];
  const text = await textIn(location.hash, ...from).catch(() => undefined);
  if (mine !== links) {
    // Another link was opened meanwhile.
    return;
  }
  if (isRecord) {
    openRecord(text ?? records[FIRST_RECORD]);
  } else {
    open(text ?? examples.replay);
  }
  await takeTab(isRecord);
}

async function copyLink() {
  await keepLink();
  const isCopied = await navigator.clipboard?.writeText(location.href).then(() => true, () => false);
  said.textContent = isCopied ? "The link is copied." : "The link is in the address line.";
  told.textContent = byId("told-of-link").textContent = said.textContent;
}

function saveDiagram() {
  const link = document.createElement("a");
  link.href = URL.createObjectURL(new Blob([diagram()], { type: "image/svg+xml" }));
  link.download = `${list.value || "script"}.svg`;
  link.click();
  setTimeout(() => URL.revokeObjectURL(link.href), 1000);
}

// ---- the tour

let stop = 0;

/** Shows a stop of the tour: its example, its two sentences, and the step that they explain. */
function showStop(number) {
  stop = Math.max(0, Math.min(number, TOUR.length - 1));
  const { example, title, words, step } = TOUR[stop];
  links += 1;
  showTab(false);
  byId("tour").hidden = false;
  byId("stop").textContent = `${stop + 1} of ${TOUR.length}: ${title}`;
  byId("words").textContent = words;
  byId("previous").disabled = stop === 0;
  byId("next").disabled = stop === TOUR.length - 1;
  list.value = example;
  open(examples[example], step);
  choose(step);
  history.replaceState(null, "", `#t=${stop + 1}`);
}

function leaveTour() {
  byId("tour").hidden = true;
  byId("begin").focus();
  keepLink();
}

// ---- actions of the reader

let waiting;

function typed() {
  clearTimeout(waiting);
  shown.place = undefined;
  editor.showMarks(undefined, "step", undefined);
  const pause = editor.text.length > PAUSE.longFrom ? PAUSE.long : PAUSE.short;
  waiting = setTimeout(() => {
    play();
    keepLink();
  }, pause);
}

/** Chooses the step at the caret. */
function followCaret() {
  if (document.activeElement !== editor.area || !isPlayed()) {
    return;
  }
  const caret = editor.area.selectionStart;
  const step = shown.steps.findIndex(({ from, to }) => from <= caret && caret <= to) + 1;
  if (step && step !== chosen) {
    choose(step);
  }
}

function nextExample() {
  const shownList = isRecordTab() ? recordList : list;
  shownList.selectedIndex = (shownList.selectedIndex % (shownList.length - 1)) + 1;
  shownList.dispatchEvent(new Event("change"));
}

/** Selects the place of the refusal that is shown; returns whether there is one. */
function goToPlace() {
  if (isRecordTab()) {
    return goToRefusal();
  }
  if (shown.place) {
    editor.select(shown.place);
  }
  return shown.place !== undefined;
}

function pressed(event) {
  const steps = { ArrowUp: -1, ArrowDown: 1 }[event.key];
  if (event.altKey && steps && !isRecordTab() && event.target.localName !== "select") {
    choose(chosen + steps);
  } else if (event.key === "F8" && goToPlace()) {
    // The place of the refusal is selected now.
  } else if (event.altKey && event.code === "KeyE") {
    nextExample();
  } else {
    return;
  }
  event.preventDefault();
}

function listen() {
  const rows = byId("rows");
  editor.area.addEventListener("input", typed);
  document.addEventListener("selectionchange", followCaret);
  slider.addEventListener("input", () => choose(Number(slider.value)));
  rows.addEventListener("click", (event) => {
    const step = stepOfEvent(event);
    if (step !== undefined) {
      choose(step);
    }
  });
  rows.addEventListener("pointerover", (event) => markColumn(stepOfEvent(event) ?? chosen));
  rows.addEventListener("pointerleave", () => markColumn(chosen));
  onColumnClick(choose);
  list.addEventListener("change", () => {
    if (list.value) {
      byId("tour").hidden = true;
      open(examples[list.value]);
      keepLink();
    }
  });
  recordList.addEventListener("change", () => {
    if (recordList.value) {
      openRecord(records[recordList.value]);
      takeTab(true);
    }
  });
  onRecordChange(() => takeTab(true));
  listenToTabs(takeTab);
  byId("share").addEventListener("click", copyLink);
  byId("save").addEventListener("click", saveDiagram);
  byId("begin").addEventListener("click", () => {
    showStop(0);
    byId("words").focus();
  });
  for (const [button, way] of [["previous", -1], ["next", 1]]) {
    byId(button).addEventListener("click", () => {
      showStop(stop + way);
      byId("words").focus();
    });
  }
  byId("leave").addEventListener("click", leaveTour);
  addEventListener("keydown", pressed);
  addEventListener("hashchange", openLink);
}

// ---- begin

/** Returns the bytes of the module that this engine can run. The page has both modules, compressed. */
function moduleBytes(isWide) {
  return passed(bytesOf(byId(isWide ? "wide-module" : "module").textContent), new DecompressionStream("deflate-raw"));
}

async function begin() {
  const start = performance.now();
  const isWide = hasWideMemories();
  player = await Player.load(await moduleBytes(isWide));
  // For the console and for tests.
  globalThis.wumsnair = player;
  examples = JSON.parse(byId("example-scripts").textContent);
  records = JSON.parse(byId("example-records").textContent);
  openRecord(records[FIRST_RECORD]);
  document.body.dataset.module = isWide ? "wide" : "lowered";
  document.body.dataset.loaded = (performance.now() - start).toFixed(1);
  for (const [options, all] of [[list, examples], [recordList, records]]) {
    options.append(...Object.keys(all).map((name) => new Option(name.replaceAll("_", " "), name)));
  }
  listen();
  await openLink();
  document.body.dataset.ready = "yes";
}

try {
  await begin();
} catch (error) {
  refusal.hidden = false;
  refusal.textContent = `The player did not load: ${error.message}.\nIt needs Chrome 103, Firefox 113, Safari 16.4, or later.`;
  throw error;
}
