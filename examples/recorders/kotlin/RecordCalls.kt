import java.util.concurrent.CountDownLatch
import java.util.concurrent.atomic.AtomicReference
import java.util.concurrent.locks.ReentrantLock
import kotlin.concurrent.thread
import kotlin.concurrent.withLock
import kotlin.system.exitProcess

// Records the calls of four threads: RecordCalls atomic|state [--fault]
//
// `atomic` is an `AtomicReference`, as a state flow without subscribers; `state` is the state flow below. With --fault one call
// answers a stale value.

private const val ROUNDS = 300
private const val FLOW = """{"kind": "state", "initial": 0}"""

/** An atomic reference compares references, so two items with one number would not be equal. */
private class Item(val number: Long)

/** A value that threads can wait for. */
private class SmallStateFlow {
    private val lock = ReentrantLock()
    private val changed = lock.newCondition()
    private var current = 0L
    private var subscribers = 0

    val value: Long get() = lock.withLock { current }

    val subscriptionCount: Int get() = lock.withLock { subscribers }

    fun getAndSet(value: Long): Long = lock.withLock {
        val old = current
        current = value
        changed.signalAll()
        old
    }

    fun compareAndSet(expect: Long, value: Long): Boolean = lock.withLock {
        (current == expect).also { if (it) getAndSet(value) }
    }

    fun subscribe() = lock.withLock { subscribers++ }

    fun unsubscribe() = lock.withLock { subscribers-- }

    /** Waits for a value that differs from the last one that the subscriber received. */
    fun next(last: Long?): Long = lock.withLock {
        while (current == last) changed.await()
        current
    }
}

private fun changeAtomic(caller: Caller, flow: AtomicReference<Item>, first: Long, fault: Boolean) {
    for (round in 0 until ROUNDS) {
        val next = Item(first + round)
        if (round % 2 == 0) {
            caller.record("update", answer = { old: Item -> updateOf(old.number, next.number) }) { flow.getAndSet(next) }
        } else {
            val expect = flow.get()
            caller.record("compare_and_set", expect.number, next.number, answer = { it }) { flow.compareAndSet(expect, next) }
        }
        caller.record("value", answer = ::valueOf) { if (fault && round == ROUNDS / 2) 0 else flow.get().number }
    }
}

private fun change(caller: Caller, flow: SmallStateFlow, first: Long, fault: Boolean) {
    for (round in 0 until ROUNDS) {
        val next = first + round
        if (round % 2 == 0) {
            caller.record("update", answer = { old: Long -> updateOf(old, next) }) { flow.getAndSet(next) }
        } else {
            val expect = flow.value
            caller.record("compare_and_set", expect, next, answer = { it }) { flow.compareAndSet(expect, next) }
        }
        caller.record("value", answer = ::valueOf) { if (fault && round == ROUNDS / 2) 0 else flow.value }
        caller.record("subscription_count", answer = { it }) { flow.subscriptionCount }
    }
}

/** Receives values for ever, and subscribes anew after each tenth. */
private fun follow(caller: Caller, flow: SmallStateFlow) {
    while (true) {
        caller.record("subscribe", answer = { DONE }) { flow.subscribe() }
        var last: Long? = null
        repeat(10) {
            last = caller.record("next", answer = ::valueOf) { flow.next(last) }
        }
        caller.record("unsubscribe", answer = { DONE }) { flow.unsubscribe() }
    }
}

private fun recordAtomic(recorder: Recorder, fault: Boolean) {
    val flow = AtomicReference(Item(0))
    val start = CountDownLatch(1)
    val threads = List(4) { number ->
        val caller = recorder.caller("t$number")
        thread {
            start.await()
            changeAtomic(caller, flow, 1000L * (number + 1), fault && number == 0)
        }
    }
    start.countDown()
    threads.forEach { it.join() }
}

private fun recordState(recorder: Recorder, fault: Boolean) {
    val flow = SmallStateFlow()
    val readers = List(2) { recorder.caller("reader$it") }
    // They wait for ever in the end: their last calls are pending.
    readers.forEach { caller -> thread(isDaemon = true) { follow(caller, flow) } }
    val writers = List(2) { number ->
        val caller = recorder.caller("writer$number")
        thread { change(caller, flow, 1000L * (number + 1), fault && number == 0) }
    }
    writers.forEach { it.join() }
    Thread.sleep(20)
}

fun main(words: Array<String>) {
    val recorder = Recorder()
    val fault = "--fault" in words
    when (words.firstOrNull()) {
        "atomic" -> recordAtomic(recorder, fault)
        "state" -> recordState(recorder, fault)
        else -> {
            System.err.println("RecordCalls atomic|state [--fault]")
            exitProcess(2)
        }
    }
    recorder.write(FLOW, System.out)
}
