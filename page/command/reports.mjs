// Reports verdicts: in lines, as JSON, and as the XML of JUnit. tools/wumsnair_tools/judging/reports.py writes the same for ./judge.
import { linesOf, visible, visibleWords } from "../web/verdict_text.js";

const VERDICTS = ["legal", "illegal", "refused", "gave up", "failed"];

/** Returns the status of a command that judged records: 1 if one is illegal, else the greatest. */
export const statusOf = (verdicts) => (verdicts.some(({ status }) => status === 1) ? 1 : Math.max(0, ...verdicts.map(({ status }) => status)));

/** Returns how many records have each verdict. */
function counted(verdicts) {
  const counts = { records: verdicts.length };
  VERDICTS.forEach((word) => (counts[word] = verdicts.filter(({ verdict }) => verdict === word).length));
  return counts;
}

/** Returns the summary of several records in a line. */
export function summary(verdicts) {
  const counts = counted(verdicts);
  const parts = VERDICTS.filter((word) => counts[word] > 0).map((word) => `${counts[word]} ${word}`);
  return `${counts.records} records: ${parts.join(", ")}\n`;
}

/** Returns a value as JSON, with numbers of type BigInt in digits. */
export function jsonOf(value, indent = "\n") {
  const deeper = `${indent} `;
  const inside = (parts, open, close) => (parts.length ? `${open}${deeper}${parts.join(`,${deeper}`)}${indent}${close}` : open + close);
  if (typeof value === "bigint") {
    return String(value);
  }
  if (Array.isArray(value)) {
    return inside(value.map((item) => jsonOf(item, deeper)), "[", "]");
  }
  if (value !== null && typeof value === "object") {
    return inside(Object.entries(value).map(([key, item]) => `${JSON.stringify(key)}: ${jsonOf(item, deeper)}`), "{", "}");
  }
  return JSON.stringify(value);
}

/** Returns the numbers of the calls that the lines of a verdict name, each with the part of the call. */
function listed(words, calls) {
  const named = linesOf(words, calls).filter(({ number }) => number > 0);
  return named.map(({ number, rest }) => ({ number, part: /\((it [a-z ]+)\)$/.exec(rest)?.[1] ?? null }));
}

/** Returns the moment by which no order explains the calls of an illegal record, and the one from which on its calls are listed. */
function momentsOf(words) {
  const [, moment, since] = /^illegal\nby moment (\d+) .*; from (\d+) on /.exec(words) ?? [];
  return moment === undefined ? { moment: null, since: null } : { moment: BigInt(moment), since: BigInt(since) };
}

/** Returns what a refusal says, in parts. */
function refusalOf(words) {
  const found = /^refused: (?:line (\d+), column (\d+): )?(?:call (\d+): )?(.*)/.exec(words);
  const part = (pattern) => pattern.exec(words)?.[1] ?? null;
  const [place, column, call] = found.slice(1, 4).map((digits) => (digits === undefined ? null : Number(digits)));
  return { line: place, column, call, message: found[4], expected: part(/^ {2}expected: (.*)$/m), nearest: part(/^ {2}nearest: "(.*)"$/m) };
}

function countsOf(calls) {
  const pending = calls.filter(({ end }) => end === undefined).length;
  return { calls: calls.length, callers: new Set(calls.map(({ by }) => by)).size, pending };
}

/** Returns a verdict as a value for JSON. */
function entry({ record, verdict, status, words, hints, calls, seconds }, withOrder) {
  const isIllegal = verdict === "illegal";
  const numbered = calls && isIllegal ? listed(words, calls).map(({ number }) => ({ number, ...calls[number - 1] })) : [];
  const order = ({ number, part }) => ({ number, by: calls[number - 1].by, call: calls[number - 1].call, part });
  return {
    record,
    verdict,
    status,
    seconds,
    counts: calls ? countsOf(calls) : null,
    ...momentsOf(words),
    calls: numbered,
    order: withOrder && verdict === "legal" ? listed(words, calls).map(order) : null,
    refusal: verdict === "refused" ? refusalOf(words) : null,
    hints,
  };
}

/** Returns a report as JSON. */
export function jsonReport(verdicts, withOrder) {
  const seconds = Math.round(verdicts.reduce((sum, verdict) => sum + verdict.seconds * 1000, 0)) / 1000;
  const records = verdicts.map((verdict) => entry(verdict, withOrder));
  return `${jsonOf({ version: 1, status: statusOf(verdicts), seconds, counts: counted(verdicts), records })}\n`;
}

/** Returns a text for XML. A character that XML cannot have is written as its number. */
function escaped(text) {
  const codes = { "&": "&amp;", "<": "&lt;", ">": "&gt;", '"': "&quot;" };
  const plain = text.replace(/[^\n\u0020-\ud7ff\ue000-\ufffd\u{10000}-\u{10ffff}]/gu, (one) => `\\u${one.codePointAt(0).toString(16).padStart(4, "0")}`);
  return plain.replace(/[&<>"]/g, (one) => codes[one]);
}

const inTag = (text) => escaped(text).replace(/\n/g, "&#10;");

/** Returns a test of JUnit for a verdict. */
function testOf({ record, verdict, words, hints, calls, seconds }) {
  const open = `  <testcase classname="wumsnair.judge" name="${inTag(record)}" time="${seconds.toFixed(3)}"`;
  if (verdict === "legal") {
    return `${open}/>\n`;
  }
  const kind = verdict === "illegal" ? "failure" : "error";
  const text = escaped([visibleWords(words, calls ?? []).trimEnd(), ...hints.map(visible)].filter((part) => part).join("\n"));
  const message = inTag(words.split("\n").slice(0, 2).map((line) => line.trim()).join(" ").trim() || verdict);
  return `${open}>\n   <${kind} type="${verdict}" message="${message}">${text}</${kind}>\n  </testcase>\n`;
}

/** Returns a report as the XML of JUnit. */
export function junitReport(verdicts) {
  const failures = verdicts.filter(({ verdict }) => verdict === "illegal").length;
  const errors = verdicts.filter(({ verdict }) => verdict !== "illegal" && verdict !== "legal").length;
  const time = verdicts.reduce((sum, { seconds }) => sum + seconds, 0).toFixed(3);
  const counts = `tests="${verdicts.length}" failures="${failures}" errors="${errors}" time="${time}"`;
  const tests = verdicts.map(testOf).join("");
  const head = `<?xml version="1.0" encoding="UTF-8"?>\n<testsuites ${counts}>\n <testsuite name="judge" ${counts}>\n`;
  return `${head}${tests} </testsuite>\n</testsuites>\n`;
}
