/**
 * Records the calls that workers, or callers of one thread, make of a flow, for `judge`. Copy this file into your project.
 *
 * Each caller has a buffer of its own. All callers raise one counter before and after each call.
 *
 *     const recording = new Recording();
 *     const caller = recording.caller("t1");
 *     caller.begin("set", { value: 3 });
 *     flow.set(3);
 *     caller.end("done");
 *     process.stdout.write(recording.text({ kind: "state", initial: 0 }));
 *
 * A worker gets `recording.clock` and makes a `new Caller("t1", clock)`. In the end it posts `caller.calls` to the main thread,
 * which passes them to `recording.add("t1", calls)`. If its next call may never return, it posts them after `begin` as well.
 */

/** A caller makes one call at a time, and has at most one subscription. */
export class Caller {
  /** The calls, each with its begin. A call without an end is pending. */
  calls = [];
  #clock;

  constructor(name, clock) {
    this.name = name;
    this.#clock = clock;
  }

  /** Begins a call. It is pending until `end`; a caller whose call never ends makes no other. */
  begin(call, keys = {}) {
    const last = this.calls.at(-1);
    if (last !== undefined && last.end === undefined) throw new Error("the last call has not ended");
    this.calls.push({ call, ...keys, begin: tick(this.#clock) });
  }

  /** Ends the call that was begun. */
  end(answer) {
    const end = tick(this.#clock);
    Object.assign(this.calls.at(-1), { end, answer });
  }

  /** Leaves out the call that was begun, since it changed nothing. */
  leaveOut() {
    this.calls.pop();
  }

  /** Records a call that does not wait. The answer is a function of its result. */
  record(call, keys, answer, body) {
    this.begin(call, keys);
    const result = body();
    this.end(answer(result));
    return result;
  }

  /** Records a call that returns a promise. If the promise is rejected, the call is pending. */
  async recordAsync(call, keys, answer, body) {
    this.begin(call, keys);
    const result = await body();
    this.end(answer(result));
    return result;
  }
}

export class Recording {
  /** The counter, which threads can share. */
  clock = new Int32Array(new SharedArrayBuffer(4));
  #calls = new Map();

  caller(name) {
    const caller = new Caller(name, this.clock);
    this.add(name, caller.calls);
    return caller;
  }

  /** Adds the calls of a caller in another thread, or replaces those that it posted before. */
  add(name, calls) {
    this.#calls.set(name, calls);
  }

  /** The flow and the calls up to now, as JSON lines. Those that have not ended are pending; their callers may still wait. */
  text(flow) {
    const cut = tick(this.clock);
    const lines = [JSON.stringify({ flow })];
    for (const [by, calls] of this.#calls) {
      for (const { end, answer, ...call } of calls.filter(({ begin }) => begin < cut)) {
        lines.push(JSON.stringify({ by, ...call, ...(end < cut && { end, answer }) }));
      }
    }
    return lines.join("\n") + "\n";
  }
}

function tick(clock) {
  return Atomics.add(clock, 0, 1);
}

/** The answer of a call that gives a value. */
export const value = (value) => ({ value });

/** The answer of a call that gives nothing. */
export const done = () => "done";

/** The answer of a call that gives a boolean or a number. */
export const itself = (result) => result;
