// The guided tour: eight examples, each with two sentences, and the step that they explain.

const tourStop = (example, title, step, words) => ({ example, title, step, words });

export const TOUR = [
  tourStop("replay", "Replay", 5, "A flow with replay 2 keeps the two newest values for subscribers that come later. The flow took 1, 2 and 3 before a subscribed, so a receives 2 and 3."),
  tourStop("slow_subscriber", "Slow subscriber", 5, "The buffer has room for two values, and a has received none of them, so the emitter of 3 waits. One next of a makes room, and 3 is emitted."),
  tourStop("drop_oldest", "Drop oldest", 6, "With drop_oldest no emitter waits: a full buffer loses its oldest value. Five values were emitted, and a receives the two newest."),
  tourStop("capacity_zero", "Rendezvous", 4, "Without a buffer an emitter hands its value over: it waits until every subscriber has received it. While there are subscribers, a value that is only tried is not taken."),
  tourStop("fast_and_slow", "Fast and slow", 7, "Each subscriber has a position of its own. The fast one receives every value, and only the slow one loses those that were dropped."),
  tourStop("state_flow", "State flow conflates", 4, "A state flow has one value, and a subscriber sees the newest one. The value went from 0 to 1 and back before a looked, so a finds nothing new."),
  tourStop("share_and_forget", "Stop and forget", 10, "This shared chain stops 10 ms after its last subscriber has left. When the 5 ms of expire have passed as well, the flow forgets what it replays."),
  tourStop("two_flows", "Two flows", 9, "A script can play several flows, and each step names its flow. Each flow and each subscriber has a lane in the diagram."),
];
