// Records calls of four callers: node record.mjs atomics|state [--fault]
//
// `atomics` is a word of shared memory, as a state flow, for workers that set it and wait for it with `Atomics`. `state` is the
// state flow below, for asynchronous callers of one thread. With --fault one call answers a stale value.
import { isMainThread, parentPort, Worker, workerData } from "node:worker_threads";
import { fileURLToPath } from "node:url";
import { Caller, done, itself, Recording, value } from "./recorder.mjs";

const ROUNDS = 250;
const FLOW = { kind: "state", initial: 0 };

/** Sets values that no other caller sets. */
function change(caller, word, first, fault) {
  for (let round = 0; round < ROUNDS; round++) {
    const next = first + round;
    if (round % 3 === 0) {
      caller.record("set", { value: next }, done, () => Atomics.store(word, 0, next));
    } else if (round % 3 === 1) {
      caller.record("update", {}, (old) => ({ old, value: next }), () => Atomics.exchange(word, 0, next));
    } else {
      const expect = Atomics.load(word, 0);
      const set = () => Atomics.compareExchange(word, 0, expect, next) === expect;
      caller.record("compare_and_set", { expect, value: next }, itself, set);
    }
    Atomics.notify(word, 0);
    const isStale = fault && round === Math.floor(ROUNDS / 2);
    caller.record("value", {}, value, () => (isStale ? 0 : Atomics.load(word, 0)));
  }
}

/** Receives values for ever. Nothing else counts those that wait for a word. */
function follow(caller, word) {
  caller.record("subscribe", {}, done, () => {});
  let last = caller.record("next", {}, value, () => Atomics.load(word, 0));
  for (;;) {
    caller.begin("next");
    let received = Atomics.load(word, 0);
    while (received === last) {
      // Nothing changes any more: this call may never return.
      if (Atomics.wait(word, 0, last, 100) === "timed-out") parentPort.postMessage(caller.calls);
      received = Atomics.load(word, 0);
    }
    caller.end(value(received));
    last = received;
  }
}

/** What a worker does. It waits until all workers are ready. */
function work({ name, clock, word, ready, first, fault }) {
  const caller = new Caller(name, clock);
  Atomics.add(ready, 0, 1);
  while (Atomics.load(ready, 0) < 4);
  if (first === undefined) {
    follow(caller, word);
  } else {
    change(caller, word, first, fault);
    parentPort.postMessage(caller.calls);
  }
}

async function recordAtomics(fault) {
  const recording = new Recording();
  const [word, ready] = [0, 0].map(() => new Int32Array(new SharedArrayBuffer(4)));
  const roles = [{ name: "w1", first: 1000, fault }, { name: "w2", first: 2000 }, { name: "r1" }, { name: "r2" }];
  const workers = roles.map((role) => {
    const workerData = { ...role, clock: recording.clock, word, ready };
    const worker = new Worker(fileURLToPath(import.meta.url), { workerData });
    const posted = new Promise((resolve, reject) => worker.once("message", resolve).once("error", reject));
    return { worker, posted: posted.then((calls) => recording.add(role.name, calls)) };
  });
  await Promise.all(workers.map(({ posted }) => posted));
  process.stdout.write(recording.text(FLOW));
  await Promise.all(workers.map(({ worker }) => worker.terminate()));
}

/** A state flow for callers that await its values. */
class StateFlow {
  #value = 0;
  #waiting = [];
  #subscribers = 0;

  get value() {
    return this.#value;
  }

  set value(value) {
    this.#value = value;
    this.#waiting.splice(0).forEach((resume) => resume());
  }

  get subscriptionCount() {
    return this.#subscribers;
  }

  /** Gives the newest value, and then each time a different one. It subscribes at once. */
  values() {
    this.#subscribers++;
    return this.#values();
  }

  async *#values() {
    let last;
    try {
      for (;;) {
        while (this.#value === last) await new Promise((resume) => this.#waiting.push(resume));
        yield (last = this.#value);
      }
    } finally {
      this.#subscribers--;
    }
  }
}

/** Lets other callers go on. */
const pause = (round) => new Promise((resume) => (round % 4 === 0 ? setImmediate(resume) : resume()));

async function changeState(caller, flow, first, fault) {
  for (let round = 0; round < ROUNDS; round++) {
    caller.record("set", { value: first + round }, done, () => (flow.value = first + round));
    await pause(round);
    const isStale = fault && round === Math.floor(ROUNDS / 2);
    caller.record("value", {}, value, () => (isStale ? 0 : flow.value));
    caller.record("subscription_count", {}, itself, () => flow.subscriptionCount);
  }
}

async function followState(caller, flow) {
  for (;;) {
    const values = caller.record("subscribe", {}, done, () => flow.values());
    for (let received = 0; received < 10; received++) {
      await caller.recordAsync("next", {}, ({ value }) => ({ value }), () => values.next());
    }
    await caller.recordAsync("unsubscribe", {}, done, () => values.return());
  }
}

async function recordState(fault) {
  const recording = new Recording();
  const flow = new StateFlow();
  // They wait for ever in the end: their last calls are pending.
  ["r1", "r2"].forEach((name) => followState(recording.caller(name), flow));
  const writers = ["w1", "w2"].map((name, number) =>
    changeState(recording.caller(name), flow, 1000 * (number + 1), fault && number === 0));
  await Promise.all(writers);
  await pause(0);
  process.stdout.write(recording.text(FLOW));
}

if (isMainThread) {
  const [kind, option] = process.argv.slice(2);
  const record = { atomics: recordAtomics, state: recordState }[kind];
  if (record === undefined) {
    console.error("node record.mjs atomics|state [--fault]");
    process.exitCode = 2;
  } else {
    await record(option === "--fault");
  }
} else {
  work(workerData);
}
