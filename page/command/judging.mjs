// Judges the texts of records, in this thread, or in another one that can be stopped.
import { writeSync } from "node:fs";
import { isatty } from "node:tty";
import { Worker, parentPort } from "node:worker_threads";
import { VERDICT, textOf } from "../web/player.js";
import { lookAt } from "./remedies.mjs";

/** The verdicts by the statuses of the module, each with its status as a command. */
const BY_STATUS = {
  [VERDICT.LEGAL]: ["legal", 0],
  [VERDICT.ILLEGAL]: ["illegal", 1],
  [VERDICT.REFUSED]: ["refused", 2],
  [VERDICT.GAVE_UP]: ["gave up", 3],
  [VERDICT.OUT_OF_MEMORY]: ["failed", 4],
};

/** The most bytes of a record. */
export const MOST_BYTES = 268_435_456;

/** The status of a command that fails: a file is not there or cannot be read, or a write fails. */
export const FAILED = 6;

/** After how many milliseconds a terminal shows for how long a search has run, and how often. */
const SHOWN_EVERY = 2000;

/** Returns the verdict of the module on the bytes of a record: its word, the status of the command, and the words. */
export function verdictOf(player, bytes, { order, memory }) {
  if (bytes.length > MOST_BYTES) {
    const words = `refused: the record has more than ${MOST_BYTES} bytes\n  expected: at most ${MOST_BYTES} bytes\n`;
    return { verdict: "refused", status: 2, words };
  }
  try {
    const answer = player.check(bytes, order);
    const [verdict, status] = BY_STATUS[answer.status];
    const hint = memory && status === 4 ? ofMemory(memory) : undefined;
    return { verdict, status, words: textOf(answer), hint };
  } catch (error) {
    const isLimited = memory && error instanceof RangeError;
    return { verdict: "failed", status: 4, words: isLimited ? "out of memory\n" : "", hint: isLimited ? ofMemory(memory) : error.message };
  }
}

const ofMemory = (megabytes) => `${megabytes} megabytes are not enough; --memory sets the limit`;

/** Shows at a terminal for how long a search has run. Returns a function that ends that. */
function showSeconds() {
  const begin = performance.now();
  let isShown = false;
  const show = () => {
    isShown = true;
    writeSync(2, `\rjudging ${String(Math.round((performance.now() - begin) / 1000)).padStart(4)} s `);
  };
  const timer = isatty(2) ? setInterval(show, SHOWN_EVERY) : undefined;
  return () => {
    clearInterval(timer);
    if (isShown) {
      writeSync(2, "\r\x1b[K");
    }
  };
}

/** Lets another thread judge, shows the time, and stops the thread after `asks.seconds`, if there are any. */
function judgeElsewhere(bytes, { file, seconds, order, memory }) {
  return new Promise((resolve) => {
    const worker = new Worker(file, { workerData: { memory } });
    const hide = showSeconds();
    const stop = (verdict) => {
      hide();
      clearTimeout(timer);
      worker.terminate();
      resolve(verdict);
    };
    const late = { verdict: "gave up", status: 3, words: "gave up\n", hint: `stopped after ${seconds} seconds; --seconds sets the limit` };
    const timer = seconds && setTimeout(() => stop(late), seconds * 1000);
    worker.on("message", stop);
    worker.on("error", (error) => stop({ verdict: "failed", status: 4, words: "", hint: error.message }));
    worker.postMessage({ bytes, asks: { order, memory } });
  });
}

/** Judges what the main thread sends. */
export function serve(player) {
  parentPort.on("message", ({ bytes, asks }) => parentPort.postMessage(verdictOf(player, Buffer.from(bytes), asks)));
}

/** Judges the bytes of a record. Returns the verdict with its remedies, the time, and the calls of the record if `asks.calls`. */
export async function judged(player, table, record, bytes, asks) {
  const begin = performance.now();
  const told = asks.seconds || isatty(2) ? await judgeElsewhere(bytes, asks) : verdictOf(player, bytes, asks);
  const seconds = Math.round(performance.now() - begin) / 1000;
  const hints = told.hint ? [told.hint] : [];
  const isRead = ["illegal", "refused", "gave up"].includes(told.verdict) || (asks.calls && told.verdict !== "failed");
  const looked = isRead && bytes.length <= MOST_BYTES ? lookAt(table, bytes, told.verdict, told.words, Boolean(told.hint)) : { remedies: [] };
  return { record, ...told, hints: [...hints, ...looked.remedies], calls: looked.calls, seconds };
}
