import java.io.PrintStream;
import java.util.ArrayList;
import java.util.List;
import java.util.Map;
import java.util.concurrent.CopyOnWriteArrayList;
import java.util.concurrent.atomic.AtomicLong;
import java.util.stream.Collectors;

/**
 * Records the calls that threads make of a flow, for {@code judge}. Copy this file into your project (Java 9 or later).
 *
 * <p>Each caller has a buffer of its own. All callers raise one counter before and after each call.
 *
 * <pre>{@code
 * Recorder recorder = new Recorder();
 * Recorder.Caller caller = recorder.caller("t1");
 * caller.begin("compare_and_set", 3, 4);
 * boolean isSet = flow.compareAndSet(3, 4);
 * caller.end(isSet);
 * recorder.write("{\"kind\": \"state\", \"initial\": 0}", System.out);
 * }</pre>
 */
public final class Recorder {
    public static final String DONE = "done";
    public static final String CANCELLED = "cancelled";
    public static final String EMPTY = "empty";

    private final AtomicLong clock = new AtomicLong();
    private final List<Caller> callers = new CopyOnWriteArrayList<>();

    public Caller caller(String name) {
        Caller caller = new Caller(name, clock);
        callers.add(caller);
        return caller;
    }

    /** The answer of a call that gives a value. */
    public static Map<String, Long> value(long value) {
        return Map.of("value", value);
    }

    /** The answer of an update. */
    public static Map<String, Long> update(long old, long value) {
        return Map.of("old", old, "value", value);
    }

    /** Writes the flow and the calls up to now. Those that have not ended are pending; their callers may still wait. */
    public void write(String flow, PrintStream out) {
        long cut = clock.incrementAndGet();
        out.println("{\"flow\": " + flow + "}");
        for (Caller caller : callers) {
            caller.write(cut, out);
        }
        out.flush();
    }

    /** A caller makes one call at a time, and has at most one subscription. */
    public static final class Caller {
        private final String name;
        private final AtomicLong clock;
        private final List<Call> calls = new ArrayList<>();

        private Caller(String name, AtomicLong clock) {
            this.name = name;
            this.clock = clock;
        }

        /**
         * Begins a call: with one value if it sets or emits it, with two if it compares and sets. It is pending until
         * {@code end}; a caller whose call never ends makes no other.
         */
        public synchronized void begin(String call, long... values) {
            if (!calls.isEmpty() && last().end == null) {
                throw new IllegalStateException("the last call has not ended");
            }
            calls.add(new Call(call, values, clock.incrementAndGet()));
        }

        /** Ends the call that was begun. The answer is a word, a boolean, a number, a list, or a {@code value}. */
        public void end(Object answer) {
            long end = clock.incrementAndGet();
            synchronized (this) {
                last().answer = answer;
                last().end = end;
            }
        }

        /** Leaves out the call that was begun, since it changed nothing. */
        public synchronized void leaveOut() {
            calls.remove(calls.size() - 1);
        }

        private Call last() {
            return calls.get(calls.size() - 1);
        }

        private synchronized void write(long cut, PrintStream out) {
            for (Call call : calls) {
                if (call.begin < cut) {
                    out.println("{\"by\": \"" + name + "\", " + call.text(cut) + "}");
                }
            }
        }
    }

    private static final class Call {
        private final String name;
        private final long[] values;
        private final long begin;
        /** Null while the call is pending. */
        private Long end;
        private Object answer;

        private Call(String name, long[] values, long begin) {
            this.name = name;
            this.values = values;
            this.begin = begin;
        }

        private String text(long cut) {
            StringBuilder text = new StringBuilder("\"call\": ").append(json(name));
            if (values.length == 2) {
                text.append(", \"expect\": ").append(values[0]);
            }
            if (values.length > 0) {
                text.append(", \"value\": ").append(values[values.length - 1]);
            }
            text.append(", \"begin\": ").append(begin);
            if (end != null && end < cut) {
                text.append(", \"end\": ").append(end).append(", \"answer\": ").append(json(answer));
            }
            return text.toString();
        }
    }

    private static String json(Object thing) {
        if (thing instanceof String) {
            return "\"" + thing + "\"";
        }
        if (thing instanceof Map) {
            return ((Map<?, ?>) thing).entrySet().stream()
                    .map(entry -> "\"" + entry.getKey() + "\": " + entry.getValue())
                    .collect(Collectors.joining(", ", "{", "}"));
        }
        return String.valueOf(thing);
    }
}
