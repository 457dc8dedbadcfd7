// The state of each flow after a step. The player gives the trace of a script: for each step, what it left of its flow. So nothing here
// knows how a flow keeps its values: a cache, a buffer and what a subscriber has yet to receive are parts of the list of emitted values.

/** The most subscribers of a flow whose values are shown. */
const MOST_SHOWN = 16;

/** Returns a flow before its first step. */
function firstState({ name, head, values, refused, value }) {
  const empty = { emitted: 0, cached: 0, subscribers: 0, value };
  return { name, flow: head, values, isRefused: refused, after: empty, readers: new Map(), waiting: new Map() };
}

/** Adds a step to the state of its flow. */
function add(state, step) {
  const { moved = [], ended = [], place, name } = step;
  for (const { place: reader, own, position } of moved) {
    const known = state.readers.get(reader) ?? { name, first: step.first ?? [] };
    if (position === undefined) {
      state.readers.delete(reader);
    } else {
      state.readers.set(reader, { ...known, own, position });
    }
  }
  if (step.received !== undefined) {
    state.readers.get(place).last = step.received;
  }
  if (step.waits !== undefined) {
    state.waiting.set(place, { name, value: step.waits });
  }
  ended.forEach((each) => state.waiting.delete(each));
  if (step.emitted !== undefined) {
    state.after = step;
  }
}

/** Returns what a subscriber has yet to receive: its own first values, and then values of the flow. */
function readerOf({ values, after }, { name, first, own, position, last }) {
  const value = after.value;
  const pending = value === undefined ? values.slice(position, after.emitted) : [value].filter(() => last !== value);
  return { name, own: first.slice(first.length - own), pending };
}

/** Returns what is shown of a flow. */
function shownOf(state) {
  const { name, flow, isRefused, values, after } = state;
  if (isRefused) {
    return { name, flow, isRefused };
  }
  const subscribers = [...state.readers.values()].slice(0, MOST_SHOWN).map((each) => readerOf(state, each));
  const cache = after.value === undefined ? values.slice(after.emitted - after.cached, after.emitted) : [];
  const buffer = [cache, ...subscribers.map(({ pending }) => pending)].reduce((a, b) => (a.length < b.length ? b : a));
  const waiting = [...state.waiting.values()];
  return {
    name, flow, cache, buffer, waiting, subscribers, count: after.subscribers, value: after.value,
    // Without a buffer, the value in the flow is that of the first waiting emitter.
    offered: waiting.length > 0 && flow.replay + flow.extra === 0 ? buffer.length : 0,
  };
}

/** Returns the state of each flow after the first `count` steps of a trace. */
export function statesAfter({ flows, lines }, count) {
  const states = flows.map(firstState);
  for (const line of lines) {
    if (line.step <= count && line.flow !== undefined) {
      add(states[line.flow], line);
    }
  }
  return states.map(shownOf);
}
