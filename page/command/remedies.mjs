// What to do about a record that is refused, or that was recorded wrongly. remedies.json has the sentences; tools/wumsnair_tools/judging/remedies.py
// finds the same ones for ./judge.
import { callsOf, recordOf } from "../web/record_text.js";

/** The least number of calls of a caller of whose moments anything is said. */
const FEW_CALLS = 2;

/** The least number of open calls that are many, and the number of them that are named. */
const MANY_OPEN = 3;
const NAMED = 8;

/** The refusal of a call that begins before its caller's call before has ended. */
const AFTER_ANOTHER = /^refused: .*call (\d+): .* is no value of "begin"\n {2}expected: a moment from the end of the caller's call before on/;

const filled = (sentence, words) => sentence.replace(/\{(\w+)\}/g, (_, key) => words[key]);

/** Returns the line and the column, from 1, of the first byte that is no UTF-8; nothing if there is none. */
function placeOfOtherByte(bytes) {
  const text = bytes.toString("utf8");
  if (Buffer.from(text, "utf8").equals(bytes)) {
    return undefined;
  }
  let at = 0;
  for (const character of text) {
    const wanted = Buffer.from(character, "utf8");
    if (!wanted.equals(bytes.subarray(at, at + wanted.length))) {
      break;
    }
    at += wanted.length;
  }
  const begin = bytes.lastIndexOf(10, at - 1) + 1;
  return { line: bytes.subarray(0, at).filter((byte) => byte === 10).length + 1, column: at - begin + 1 };
}

/** Returns whether the first line of a record is all of its head. */
function hasLines(lines) {
  try {
    return JSON.parse(lines.find((line) => line.trim())).calls === undefined;
  } catch {
    return false;
  }
}

/** Returns whether a record of JSON lines is refused for its last line, which has no end. */
function isCutOff(words, text) {
  const lines = text.trimEnd().split("\n");
  const refused = /^refused: line (\d+), column \d+: the text ends here/.exec(words);
  return Number(refused?.[1]) === lines.length && hasLines(lines);
}

/** Returns the number of the pending call that a caller made before the call that is refused; nothing if there is none. */
function pendingBefore(words, text) {
  const refused = AFTER_ANOTHER.exec(words);
  if (!refused) {
    return undefined;
  }
  const calls = callsOf(text).slice(0, Number(refused[1]));
  const { by } = calls.pop();
  const number = calls.findLastIndex((call) => call.by === by) + 1;
  return number > 0 && calls[number - 1].end === undefined ? { number, by } : undefined;
}

/** Returns what to do about a refused record, by the words of its refusal and its bytes. */
export function remediesOfRefusal(table, words, bytes) {
  if (bytes.length === 0) {
    return [table.of_texts.empty];
  }
  const text = bytes.toString("utf8");
  if (isCutOff(words, text)) {
    return [table.of_texts.cut_off];
  }
  const pending = pendingBefore(words, text);
  if (pending) {
    return [filled(table.of_texts.after_pending, pending)];
  }
  const place = placeOfOtherByte(bytes);
  if (place) {
    return [filled(table.of_texts.no_utf8, place)];
  }
  return table.of_refusals.filter(({ pattern }) => new RegExp(pattern).test(words)).slice(0, 1).map(({ remedy }) => remedy);
}

/** Returns the first call of each caller that its subscription does not allow. */
function subscriptionFaults(table, calls) {
  const subscribed = new Map();
  const faults = new Map();
  calls.forEach(({ by, call }, index) => {
    const has = subscribed.get(by) ?? false;
    const isOwn = call === "next" || call === "unsubscribe";
    const isNew = call === "subscribe" || call === "first";
    if (!faults.has(by) && ((isOwn && !has) || (isNew && has))) {
      const sentence = has ? table.of_calls.second_subscription : table.of_calls.no_subscription;
      faults.set(by, filled(sentence, { number: index + 1, by, call }));
    }
    if (call === "subscribe" || call === "unsubscribe") {
      subscribed.set(by, call === "subscribe");
    }
  });
  return [...faults.values()];
}

/** Returns the values that a call may give the flow or its own subscription. */
const sentBy = ({ call, value, answer, first = [] }) => [...(value === undefined ? [] : [value]), ...(call === "update" ? [answer.value] : []), ...first];

/** Returns the values that a call found in the flow. */
function foundBy({ call, expect, answer }) {
  if (Array.isArray(answer)) {
    return answer;
  }
  if (answer?.value !== undefined) {
    return [call === "update" ? answer.old : answer.value];
  }
  return expect !== undefined && answer === true ? [expect] : [];
}

/** Returns a warning if a call found a value that no call sends. */
function unknownValues(table, flow, calls) {
  const sent = new Set([flow.initial, ...calls.flatMap(sentBy)]);
  const value = calls.flatMap(foundBy).find((found) => !sent.has(found));
  return value === undefined ? [] : [filled(table.of_calls.unknown_value, { value })];
}

/** Returns a warning if a subscriber of a state flow received the same value twice in a row. */
function repeatedValues(table, flow, calls) {
  const last = new Map();
  const isRepeated = ({ by, call, answer }) => {
    const before = last.get(by);
    if (call === "subscribe" || call === "unsubscribe") {
      last.delete(by);
    } else if (call === "next" && answer?.value !== undefined) {
      last.set(by, answer.value);
      return before === answer.value;
    }
    return false;
  };
  const number = flow.kind === "state" ? calls.findIndex(isRepeated) + 1 : 0;
  return number > 0 ? [filled(table.of_calls.same_value, { number })] : [];
}

/** Returns for each caller its first and its last moment, and the number of its calls. A pending call has no last moment. */
function spansOf(calls) {
  const spans = new Map();
  for (const { by, begin, end } of calls) {
    const span = spans.get(by) ?? { by, begin, end, count: 0 };
    spans.set(by, { by, begin: span.begin, end: end === undefined || end > span.end ? end : span.end, count: span.count + 1 });
  }
  return [...spans.values()].filter((span) => span.count >= FEW_CALLS);
}

/** Returns a warning if two callers never overlap. */
function clockWarnings(table, calls) {
  const spans = spansOf(calls);
  const first = spans.filter((span) => span.end !== undefined).reduce((a, b) => (a && a.end <= b.end ? a : b), undefined);
  const later = first && spans.find((span) => span.begin > first.end);
  return later ? [filled(table.of_calls.other_clock, { by: later.by, other: first.by })] : [];
}

const byValue = (one, other) => (one < other ? -1 : Number(one > other));

/** Returns the first moment at which the most calls were open, and their numbers. */
function openCalls(calls) {
  const ends = calls.map(({ end }) => end ?? Infinity);
  const closed = [...ends].sort(byValue);
  let [most, moment, over] = [0, 0, 0];
  calls.map(({ begin }) => begin).sort(byValue).forEach((begin, index) => {
    while (closed[over] < begin) {
      over++;
    }
    if (index + 1 - over > most) {
      [most, moment] = [index + 1 - over, begin];
    }
  });
  const isOpen = ({ begin }, index) => begin <= moment && moment <= ends[index];
  return { moment, numbers: calls.flatMap((call, index) => (isOpen(call, index) ? [index + 1] : [])) };
}

/** Returns what to do if the search gave up, by itself or since the time was up. Where it stopped, it does not say. */
function giveUpRemedies(table, calls, isStopped) {
  const { moment, numbers } = openCalls(calls);
  const named = numbers.slice(0, NAMED).map((number) => `call ${number}`).join(", ");
  const areFew = numbers.length < MANY_OPEN;
  const sentence = areFew ? table.of_calls.few_open : table.of_calls.many_open;
  return areFew && (isStopped || numbers.length === 0) ? [] : [filled(sentence, { moment, count: numbers.length, calls: named })];
}

/** Returns the calls of a record; nothing if it is none, which a search that was stopped does not say. */
function callsIfRead(bytes) {
  try {
    const calls = callsOf(bytes.toString("utf8"));
    return calls.every((call) => ["by", "call", "begin"].every((key) => Object.hasOwn(call, key))) ? calls : undefined;
  } catch {
    return undefined;
  }
}

/** Returns what looks wrong in a record that was read. */
export function warningsOf(table, { flow, calls }) {
  const ofValues = [...unknownValues(table, flow, calls), ...repeatedValues(table, flow, calls)];
  return [...subscriptionFaults(table, calls), ...ofValues, ...clockWarnings(table, calls)];
}

/** Returns the remedies for a record, and its calls if it was read. `isStopped` says that the time of a search was up. */
export function lookAt(table, bytes, verdict, words, isStopped) {
  if (verdict === "refused") {
    return { calls: undefined, remedies: remediesOfRefusal(table, words, bytes) };
  }
  if (verdict === "gave up") {
    const calls = callsIfRead(bytes);
    return { calls, remedies: giveUpRemedies(table, calls ?? [], isStopped) };
  }
  const read = recordOf(bytes.toString("utf8"));
  return { calls: read.calls, remedies: warningsOf(table, read) };
}
