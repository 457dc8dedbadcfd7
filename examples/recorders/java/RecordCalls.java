import java.util.ArrayList;
import java.util.List;
import java.util.concurrent.ArrayBlockingQueue;
import java.util.concurrent.BlockingQueue;
import java.util.concurrent.CountDownLatch;
import java.util.concurrent.TimeUnit;
import java.util.concurrent.atomic.AtomicReference;

/**
 * Records the calls of four threads: {@code RecordCalls atomic|queue|state [--fault]}.
 *
 * <p>{@code atomic} is an {@code AtomicReference}, as a state flow without subscribers; {@code queue} an {@code
 * ArrayBlockingQueue} with one consumer, as a shared flow whose emitters wait for room; {@code state} the state flow below.
 * With {@code --fault} one call answers a stale value.
 */
public final class RecordCalls {
    private static final int ROUNDS = 300;
    private static final int ROOM = 2;

    private interface Body {
        void run() throws InterruptedException;
    }

    /** A value that an atomic reference holds. It compares references, so equal numbers need not be equal here. */
    private static final class Item {
        private final long number;

        private Item(long number) {
            this.number = number;
        }
    }

    /** A value that threads can wait for. */
    private static final class StateFlow {
        private long value;
        private int subscribers;

        synchronized long value() {
            return value;
        }

        synchronized long getAndSet(long next) {
            long old = value;
            value = next;
            notifyAll();
            return old;
        }

        synchronized boolean compareAndSet(long expect, long next) {
            boolean isEqual = value == expect;
            if (isEqual) {
                getAndSet(next);
            }
            return isEqual;
        }

        synchronized void subscribe() {
            subscribers++;
        }

        synchronized void unsubscribe() {
            subscribers--;
        }

        synchronized int subscriptionCount() {
            return subscribers;
        }

        /** Waits for a value that differs from the last one that the subscriber received. */
        synchronized long next(Long last) throws InterruptedException {
            while (last != null && value == last) {
                wait();
            }
            return value;
        }
    }

    private final Recorder recorder = new Recorder();
    private final CountDownLatch start = new CountDownLatch(1);
    private final List<Thread> threads = new ArrayList<>();
    private final boolean fault;

    private RecordCalls(boolean fault) {
        this.fault = fault;
    }

    /** Makes a thread. Threads that wait for ever do not keep the program from its end. */
    private void add(Body body) {
        Thread thread = new Thread(() -> {
            try {
                start.await();
                body.run();
            } catch (InterruptedException stopped) {
                Thread.currentThread().interrupt();
            }
        });
        thread.setDaemon(true);
        threads.add(thread);
    }

    /** Runs the threads until these many have ended, and writes their calls. */
    private void run(int ending, String flow) throws InterruptedException {
        threads.forEach(Thread::start);
        start.countDown();
        for (Thread thread : threads.subList(0, ending)) {
            thread.join();
        }
        // Lets the others receive what is left.
        Thread.sleep(20);
        recorder.write(flow, System.out);
    }

    private void changeAtomic(Recorder.Caller caller, AtomicReference<Item> flow, long first, boolean isFaulty) {
        for (int round = 0; round < ROUNDS; round++) {
            Item next = new Item(first + round);
            if (round % 2 == 0) {
                caller.begin("update");
                Item old = flow.getAndSet(next);
                caller.end(Recorder.update(old.number, next.number));
            } else {
                Item expect = flow.get();
                caller.begin("compare_and_set", expect.number, next.number);
                caller.end(flow.compareAndSet(expect, next));
            }
            caller.begin("value");
            long value = flow.get().number;
            caller.end(Recorder.value(isFaulty && round == ROUNDS / 2 ? 0 : value));
        }
    }

    private void recordAtomic() throws InterruptedException {
        AtomicReference<Item> flow = new AtomicReference<>(new Item(0));
        for (int number = 1; number <= 4; number++) {
            Recorder.Caller caller = recorder.caller("t" + number);
            long first = 1000L * number;
            boolean isFaulty = fault && number == 1;
            add(() -> changeAtomic(caller, flow, first, isFaulty));
        }
        run(4, "{\"kind\": \"state\", \"initial\": 0}");
    }

    private void put(Recorder.Caller caller, BlockingQueue<Long> flow, long first) throws InterruptedException {
        for (long value = first; value < first + ROUNDS; value++) {
            if (value % 3 == 0) {
                caller.begin("try_emit", value);
                caller.end(flow.offer(value));
            } else if (value % 3 == 1) {
                caller.begin("emit", value);
                boolean isPut = flow.offer(value, 500, TimeUnit.MICROSECONDS);
                caller.end(isPut ? Recorder.DONE : Recorder.CANCELLED);
            } else {
                caller.begin("emit", value);
                flow.put(value);
                caller.end(Recorder.DONE);
            }
        }
    }

    /** Takes fewer values than are put: some emitters wait for ever. */
    private void take(Recorder.Caller caller, BlockingQueue<Long> flow) throws InterruptedException {
        long last = 0;
        for (int round = 0; round < ROUNDS; round++) {
            caller.begin("next");
            long value = flow.take();
            caller.end(Recorder.value(fault && round == ROUNDS / 2 ? last : value));
            last = value;
            if (round % 50 == 0) {
                Thread.sleep(2);
            }
        }
    }

    private void recordQueue() throws InterruptedException {
        BlockingQueue<Long> flow = new ArrayBlockingQueue<>(ROOM);
        Recorder.Caller consumer = recorder.caller("consumer");
        // A queue keeps values for its consumer from the beginning.
        consumer.begin("subscribe");
        consumer.end(Recorder.DONE);
        add(() -> take(consumer, flow));
        for (int number = 1; number <= 3; number++) {
            Recorder.Caller caller = recorder.caller("producer" + number);
            long first = 1000L * number;
            add(() -> put(caller, flow, first));
        }
        run(1, "{\"kind\": \"shared\", \"replay\": 0, \"extra\": " + ROOM + ", \"overflow\": \"suspend\"}");
    }

    private void change(Recorder.Caller caller, StateFlow flow, long first, boolean isFaulty) {
        for (int round = 0; round < ROUNDS; round++) {
            long next = first + round;
            if (round % 2 == 0) {
                caller.begin("update");
                caller.end(Recorder.update(flow.getAndSet(next), next));
            } else {
                long expect = flow.value();
                caller.begin("compare_and_set", expect, next);
                caller.end(flow.compareAndSet(expect, next));
            }
            caller.begin("value");
            long value = flow.value();
            caller.end(Recorder.value(isFaulty && round == ROUNDS / 2 ? 0 : value));
            caller.begin("subscription_count");
            caller.end(flow.subscriptionCount());
        }
    }

    /** Receives values for ever, and subscribes anew after each tenth. */
    private void follow(Recorder.Caller caller, StateFlow flow) throws InterruptedException {
        while (true) {
            caller.begin("subscribe");
            flow.subscribe();
            caller.end(Recorder.DONE);
            Long last = null;
            for (int number = 0; number < 10; number++) {
                caller.begin("next");
                last = flow.next(last);
                caller.end(Recorder.value(last));
            }
            caller.begin("unsubscribe");
            flow.unsubscribe();
            caller.end(Recorder.DONE);
        }
    }

    private void recordState() throws InterruptedException {
        StateFlow flow = new StateFlow();
        for (int number = 1; number <= 2; number++) {
            Recorder.Caller caller = recorder.caller("writer" + number);
            long first = 1000L * number;
            boolean isFaulty = fault && number == 1;
            add(() -> change(caller, flow, first, isFaulty));
        }
        for (int number = 1; number <= 2; number++) {
            Recorder.Caller caller = recorder.caller("reader" + number);
            add(() -> follow(caller, flow));
        }
        run(2, "{\"kind\": \"state\", \"initial\": 0}");
    }

    public static void main(String[] words) throws InterruptedException {
        RecordCalls calls = new RecordCalls(words.length == 2 && words[1].equals("--fault"));
        switch (words.length == 0 ? "" : words[0]) {
            case "atomic":
                calls.recordAtomic();
                break;
            case "queue":
                calls.recordQueue();
                break;
            case "state":
                calls.recordState();
                break;
            default:
                System.err.println("RecordCalls atomic|queue|state [--fault]");
                System.exit(2);
        }
    }
}
