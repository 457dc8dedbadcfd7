// The command `node wumsnair.mjs`: judges records of calls, and plays and draws flow scripts, by the proved module in this file.
import { closeSync, openSync, readFileSync, readSync, statSync, writeSync } from "node:fs";
import { isatty } from "node:tty";
import { isMainThread, workerData } from "node:worker_threads";
import { inflateRawSync } from "node:zlib";
import { FORM, Player, STATUS } from "../web/player.js";
import { visible, visibleLines, visibleWords } from "../web/verdict_text.js";
import { FAILED, MOST_BYTES, judged, serve, verdictOf } from "./judging.mjs";
import { LEAST_MEMORY, MOST_MEMORY, withMemory } from "./memory.mjs";
import { jsonReport, junitReport, statusOf, summary } from "./reports.mjs";

const HELP = `Judges records of calls, and plays and draws flow scripts.

  node wumsnair.mjs judge RECORD..   prints for each record \`legal\`, or \`illegal\` and why
  node wumsnair.mjs play SCRIPT      plays a script and prints its lines
  node wumsnair.mjs draw SCRIPT      draws a script as SVG; with --text for a terminal
  node wumsnair.mjs explain SCRIPT   prints the lines of a script, each with the rule behind it
  node wumsnair.mjs --version        prints the version, and the commit that this file was built from

Options of judge:
  --order        prints an order of the calls that explains a legal record, too
  --json         prints one report on all records as JSON, and --junit as the XML of JUnit
  --seconds N    stops after N seconds for each record; the verdict is then \`gave up\`
  --memory N     gives the module at most N megabytes, 16 to 4,096; a record that needs more ends with status 4
  --stream       reads any number of records from standard input, each after a line with its number of bytes, and prints for each
                 a line with the status and the number of bytes of the words, and the words

Without a file, or with the file \`-\`, each reads standard input. At a terminal it shows for how long a search has run, after two seconds,
and writes control characters in names as their numbers.

The statuses are those of ./judge, ./play and ./draw (docs/SECURITY.md): 0 for a legal record or a script that was played, 1 for an
illegal record, 2 if a text or an option is refused, 3 if the search gave up, 4 if it is out of memory, and 6 if it fails: a file is
not there, say, or a read or a write fails. The status of several records is 1 if one is illegal, else the greatest.
`;
const MOST_OF_A_SCRIPT = 1_048_577;
const STANDARD_INPUT = "-";
const OPTIONS = { judge: ["--order", "--json", "--junit", "--seconds", "--memory", "--stream"], play: [], draw: ["--text", "--explain"], explain: [] };
const WRONG_MEMORY = `--memory takes a number of megabytes from ${LEAST_MEMORY} to 4,096`;
const DONE_ELSEWHERE = ["--draw", "--text", "--shrink", "--turns"];

/** Ends the command: an exception with a status and words for standard error. */
class Stop extends Error {
  constructor(status, words) {
    super(words);
    this.status = status;
  }
}

/** Writes all bytes, also to a pipe that is full for a while. */
function put(output, bytes) {
  let rest = Buffer.from(bytes);
  while (rest.length > 0) {
    try {
      rest = rest.subarray(writeSync(output, rest));
    } catch (error) {
      if (error.code !== "EAGAIN") {
        throw new Stop(FAILED, error.code === "EPIPE" ? "" : `cannot write: ${error.message}`);
      }
    }
  }
}

/** Writes lines, to a terminal without control characters. */
const print = (output, lines) => put(output, isatty(output) ? visibleLines(lines) : lines);

const say = (words) => print(2, `${words}\n`);

/** Returns the first bytes of a file that has more. */
function frontOf(file, most) {
  const front = Buffer.alloc(most);
  const opened = openSync(file, "r");
  readSync(opened, front, 0, most, 0);
  closeSync(opened);
  return front;
}

/** Reads a file, or standard input, or at least a number of its first bytes. */
async function read(file, what, most) {
  if (file !== undefined && file !== STANDARD_INPUT) {
    try {
      return statSync(file).size > most ? frontOf(file, most) : readFileSync(file);
    } catch (error) {
      throw new Stop(FAILED, error.code === "ENOENT" ? `no such file: ${file}` : `cannot read ${file}: ${error.message}`);
    }
  }
  if (process.stdin.isTTY) {
    say(`reading a ${what} from standard input, up to Ctrl-D; --help lists all forms`);
  }
  const parts = [];
  let length = 0;
  for await (const part of process.stdin) {
    parts.push(part);
    length += part.length;
    if (length >= most) {
      break;
    }
  }
  return Buffer.concat(parts);
}

/** Returns how many letters must be added, removed or replaced to make one word of another. */
function distance(word, other) {
  let row = [...other, ""].map((_, index) => index);
  [...word].forEach((letter, number) => {
    const next = [number + 1];
    [...other].forEach((known, index) => next.push(Math.min(next[index] + 1, row[index + 1] + 1, row[index] + (letter !== known))));
    row = next;
  });
  return row.at(-1);
}

/** Returns the refusal of an option or a command, with the nearest known one. */
function unknown(kind, word, known) {
  const near = known.filter((other) => distance(word, other) <= 2).sort((a, b) => distance(word, a) - distance(word, b))[0];
  return new Stop(2, `no ${kind} ${word}${near ? `: did you mean ${near}?` : "; --help lists them"}`);
}

/** Returns the options and the files of a command. */
function parts(command, words) {
  const asks = {};
  const files = [];
  for (let at = 0; at < words.length; at++) {
    const word = words[at];
    if (word === STANDARD_INPUT || !word.startsWith("-")) {
      files.push(word);
    } else if (!OPTIONS[command].includes(word)) {
      const isElsewhere = command === "judge" && DONE_ELSEWHERE.includes(word);
      throw isElsewhere ? new Stop(2, `no option ${word} here: ./judge has it`) : unknown("option", word, [...OPTIONS[command], "--help", "--version"]);
    } else if (word === "--seconds") {
      asks.seconds = Number(words[++at]);
      if (!(asks.seconds > 0 && asks.seconds < 2_000_000)) {
        throw new Stop(2, "--seconds takes a number of seconds above 0");
      }
    } else if (word === "--memory") {
      asks.memory = /^[0-9]+$/.test(words[++at]) ? Number(words[at]) : 0;
      if (asks.memory < LEAST_MEMORY || asks.memory > MOST_MEMORY) {
        throw new Stop(2, WRONG_MEMORY);
      }
    } else {
      asks[word.slice(2)] = true;
    }
  }
  if (asks.json && asks.junit) {
    throw new Stop(2, "--json and --junit do not go together");
  }
  return { asks, files };
}

/** Plays or draws a script. Returns the status. */
async function showScript(player, command, { asks, files }) {
  if (files.length > 1) {
    throw new Stop(FAILED, `one script at a time: ${files.join(" ")}`);
  }
  const script = (await read(files[0], "script", MOST_OF_A_SCRIPT)).subarray(0, MOST_OF_A_SCRIPT);
  const form = command === "explain" || asks.explain ? FORM.EXPLAINED : asks.text ? FORM.TEXT : FORM.SVG;
  const { status, bytes } = command === "play" ? player.play(script) : player.draw(form, script);
  put(1, bytes);
  if (status === STATUS.REFUSED) {
    put(2, player.explain(script).bytes);
  }
  return status;
}

/** Judges one record. */
async function judgeFile(player, table, file, asks) {
  try {
    const bytes = await read(file, "record", MOST_BYTES + 1);
    return await judged(player, table, file ?? STANDARD_INPUT, bytes, asks);
  } catch (error) {
    if (!(error instanceof Stop)) {
      throw error;
    }
    return { record: file ?? STANDARD_INPUT, verdict: "failed", status: error.status, words: "", hints: [error.message], seconds: 0 };
  }
}

/** Prints the verdict on one of several records, or on the only one. */
function show({ record, words, hints, calls, verdict }, isOnly) {
  const lines = isatty(1) ? visibleWords(words, calls ?? []) : words;
  print(1, isOnly ? lines : `${record}: ${lines || `${verdict}\n`}`);
  const shown = isatty(2) ? hints.map(visible) : hints;
  shown.forEach((hint) => say(verdict === "failed" ? hint : isOnly ? `hint: ${hint}` : `${record}: hint: ${hint}`));
}

/** Judges records. Returns the status. */
async function judgeAll(player, table, { asks, files }) {
  const verdicts = [];
  const isReport = asks.json || asks.junit;
  for (const file of files.length ? files : [undefined]) {
    const verdict = await judgeFile(player, table, file, { ...asks, calls: isReport || isatty(1), file: new URL(import.meta.url) });
    verdicts.push(verdict);
    if (!isReport) {
      show(verdict, files.length < 2);
    }
  }
  if (isReport) {
    print(1, asks.json ? jsonReport(verdicts, asks.order) : junitReport(verdicts));
  } else if (files.length > 1) {
    put(1, summary(verdicts));
  }
  return statusOf(verdicts);
}

/** Judges each record of standard input, and prints the status and the words. */
async function judgeStream(player, asks) {
  let buffer = Buffer.alloc(0);
  for await (const part of process.stdin) {
    buffer = Buffer.concat([buffer, part]);
    for (let line = buffer.indexOf(10); line >= 0; line = buffer.indexOf(10)) {
      const end = line + 1 + Number(buffer.subarray(0, line).toString());
      if (buffer.length < end) {
        break;
      }
      const { status, words } = verdictOf(player, buffer.subarray(line + 1, end), asks);
      put(1, `${status} ${Buffer.byteLength(words)}\n${words}`);
      buffer = buffer.subarray(end);
    }
  }
  return 0;
}

/** Returns the player of this file, whose memory has at most so many megabytes. */
async function loaded(megabytes) {
  return Player.load(withMemory(inflateRawSync(Buffer.from(MODULE, "base64")), megabytes ?? MOST_MEMORY));
}

async function run([command, ...words]) {
  if (command === undefined || [command, ...words].some((word) => word === "--help" || word === "-h")) {
    put(1, HELP);
    return command === undefined ? 2 : 0;
  }
  if ([command, ...words].includes("--version")) {
    put(1, `wumsnair ${VERSION}, built from ${COMMIT}\n`);
    return 0;
  }
  if (!Object.hasOwn(OPTIONS, command)) {
    throw unknown("command", command, Object.keys(OPTIONS));
  }
  const given = parts(command, words);
  const player = await loaded(given.asks.memory);
  if (command !== "judge") {
    return showScript(player, command, given);
  }
  return given.asks.stream ? judgeStream(player, given.asks) : judgeAll(player, REMEDIES, given);
}

if (isMainThread) {
  try {
    process.exitCode = await run(process.argv.slice(2));
  } catch (error) {
    const isFull = error instanceof WebAssembly.RuntimeError || error instanceof RangeError;
    if (!(error instanceof Stop) && !isFull) {
      throw error;
    }
    process.exitCode = isFull ? STATUS.OUT_OF_MEMORY : error.status;
    if (error.message) {
      process.stderr.write(`${isatty(2) ? visibleLines(error.message) : error.message}\n`);
    }
  }
} else {
  serve(await loaded(workerData.memory));
}
