// The proved player of flow scripts as a WebAssembly module.
//
// The player is compiled for addresses of 64 bits, so each pointer is passed as a BigInt, to the lowered module, too. A call
// takes the script and a buffer. If the buffer is too short, the call gives the length that it needs, and is made again.

/** The statuses of calls. */
export const STATUS = { GIVEN: 0, TOO_LONG: 1, REFUSED: 2, OUT_OF_MEMORY: 4 };

/** The statuses for a record of calls, besides those above. */
export const VERDICT = { LEGAL: 0, REFUSED: 2, GAVE_UP: 3, OUT_OF_MEMORY: 4, ILLEGAL: 5 };

/** The forms of a drawing: a picture as SVG or as text, or the lines with their rules. */
export const FORM = { SVG: 0, TEXT: 1, EXPLAINED: 2 };

const FIRST_ROOM = 1 << 16;

/** A module that has only a table and a memory with addresses of 64 bits. */
const WIDE = [0, 0x61, 0x73, 0x6d, 1, 0, 0, 0, 4, 4, 1, 0x70, 4, 0, 5, 3, 1, 4, 0];

/** Returns whether this engine supports memories and tables with addresses of 64 bits. */
export function hasWideMemories() {
  return WebAssembly.validate(new Uint8Array(WIDE));
}

/** Returns the text of an answer. */
export function textOf(answer) {
  return new TextDecoder().decode(answer.bytes);
}

export class Player {
  #module;
  #calls;
  #memory;
  #out = 0n;
  #room = 0;
  #needed = 0n;

  constructor(module) {
    this.#module = module;
    this.#begin();
  }

  /** Returns a player that runs a module of these bytes. */
  static async load(bytes) {
    return new Player(await WebAssembly.compile(bytes));
  }

  /** Returns the lines that a script writes, as `./play` prints them. */
  play(script) {
    return this.#call("wumsnair_play", [], script);
  }

  /** Returns the drawing of a script, as `./draw` prints it. */
  draw(form, script) {
    return this.#call("wumsnair_draw", [form], script);
  }

  /** Returns the trace of a script as JSON, with its picture if it has at most `mostDrawn` steps. */
  trace(mostDrawn, script) {
    return this.#call("wumsnair_trace", [mostDrawn], script);
  }

  /** Returns where and why a script is refused, as `./draw` says it on standard error; nothing if it is not refused. */
  explain(script) {
    return this.#call("wumsnair_explain", [], script);
  }

  /** Returns the verdict on a record of calls, as `./judge` prints it; for a legal one with the order of its calls, if `withOrder`. */
  check(record, withOrder) {
    return this.#call("wumsnair_check", [Number(withOrder)], record);
  }

  /** Makes a new instance. After a trap, for instance of a full stack, the memory of the old instance must not be used again. */
  #begin() {
    this.#calls = new WebAssembly.Instance(this.#module, {}).exports;
    this.#memory = this.#calls.memory;
    this.#out = 0n;
    this.#needed = this.#place(8);
    this.#makeRoom(FIRST_ROOM);
  }

  #place(bytes) {
    const at = this.#calls.wumsnair_room(BigInt(bytes));
    if (at === 0n) {
      throw new RangeError("the player has no memory for this text");
    }
    return at;
  }

  #makeRoom(bytes) {
    if (this.#out !== 0n) {
      this.#calls.wumsnair_give_back(this.#out);
      this.#out = 0n;
    }
    this.#out = this.#place(bytes);
    this.#room = bytes;
  }

  #call(name, words, script) {
    const bytes = typeof script === "string" ? new TextEncoder().encode(script) : script;
    try {
      const at = this.#place(Math.max(bytes.length, 1));
      new Uint8Array(this.#memory.buffer, Number(at), bytes.length).set(bytes);
      const once = () => this.#calls[name](...words, at, BigInt(bytes.length), this.#out, BigInt(this.#room), this.#needed);
      let status = once();
      if (status === STATUS.TOO_LONG) {
        this.#makeRoom(Math.ceil(this.#length() * 1.125));
        status = once();
      }
      this.#calls.wumsnair_give_back(at);
      return { status, bytes: new Uint8Array(this.#memory.buffer, Number(this.#out), this.#length()).slice() };
    } catch (error) {
      this.#begin();
      throw error;
    }
  }

  #length() {
    return Number(new DataView(this.#memory.buffer).getBigUint64(Number(this.#needed), true));
  }
}
