import java.util.concurrent.CopyOnWriteArrayList
import java.util.concurrent.atomic.AtomicLong

/**
 * Records the calls that threads or coroutines make of a flow, for `judge`. Copy this file into your project.
 *
 * Each caller has a buffer of its own. All callers raise one counter before and after each call.
 *
 *     val recorder = Recorder()
 *     val caller = recorder.caller("t1")
 *     caller.record("compare_and_set", 3, 4, answer = { it }) { flow.compareAndSet(3, 4) }
 *     recorder.write("""{"kind": "state", "initial": 0}""", System.out)
 *
 * `record` is inline, so its body may suspend. With kotlinx.coroutines, which `tools/recorders` does not use, an emitter and a
 * collector of a `MutableSharedFlow<Long>`:
 *
 *     emitter.begin("emit", value)
 *     try {
 *         flow.emit(value)
 *         emitter.end(DONE)
 *     } catch (stopped: CancellationException) {
 *         emitter.end(CANCELLED)
 *         throw stopped
 *     }
 *
 *     // A `next` lasts from the end of the block until the block begins again. The last one is pending until `cancel`.
 *     reader.begin("subscribe")
 *     val job = scope.launch {
 *         flow.onSubscription { reader.end(DONE); reader.begin("next") }.collect { value ->
 *             reader.end(valueOf(value))
 *             reader.begin("next")
 *         }
 *     }
 *
 *     // When no value is due any more:
 *     job.cancelAndJoin()
 *     reader.endAs("unsubscribe", DONE)
 */
class Recorder {
    private val clock = AtomicLong()
    private val callers = CopyOnWriteArrayList<Caller>()

    fun caller(name: String): Caller = Caller(name, clock).also { callers += it }

    /** Writes the flow and the calls up to now. Those that have not ended are pending; their callers may still wait. */
    fun write(flow: String, out: Appendable) {
        val cut = clock.incrementAndGet()
        out.append("{\"flow\": $flow}\n")
        callers.forEach { it.write(cut, out) }
    }
}

const val DONE = "done"
const val CANCELLED = "cancelled"
const val EMPTY = "empty"

/** The answer of a call that gives a value. */
fun valueOf(value: Long): Any = mapOf("value" to value)

/** The answer of an update. */
fun updateOf(old: Long, value: Long): Any = mapOf("old" to old, "value" to value)

/** A caller makes one call at a time, and has at most one subscription. */
class Caller(private val name: String, private val clock: AtomicLong) {
    private val calls = ArrayList<Call>()

    /**
     * Begins a call: with one value if it sets or emits it, with two if it compares and sets. It is pending until [end]; a
     * caller whose call never ends makes no other.
     */
    @Synchronized
    fun begin(call: String, vararg values: Long) {
        check(calls.isEmpty() || calls.last().end != null) { "the last call has not ended" }
        calls += Call(call, values, clock.incrementAndGet())
    }

    /** Ends the call that was begun. The answer is a word, a boolean, a number, a list, or a [valueOf]. */
    fun end(answer: Any) {
        val end = clock.incrementAndGet()
        synchronized(this) {
            calls.last().answer = answer
            calls.last().end = end
        }
    }

    /** Ends the call that was begun as another one, which its answer showed it to be. */
    fun endAs(call: String, answer: Any) {
        synchronized(this) { calls.last().name = call }
        end(answer)
    }

    /** Leaves out the call that was begun, since it changed nothing. */
    @Synchronized
    fun leaveOut() {
        calls.removeAt(calls.lastIndex)
    }

    /** Records a call. If its body fails, the call is pending. */
    inline fun <T> record(call: String, vararg values: Long, answer: (T) -> Any, body: () -> T): T {
        begin(call, *values)
        val result = body()
        end(answer(result))
        return result
    }

    @Synchronized
    internal fun write(cut: Long, out: Appendable) {
        for (call in calls) {
            if (call.begin < cut) out.append("{\"by\": \"$name\", ${call.text(cut)}}\n")
        }
    }
}

private class Call(var name: String, val values: LongArray, val begin: Long) {
    /** Null while the call is pending. */
    var end: Long? = null
    var answer: Any? = null

    fun text(cut: Long): String = buildString {
        append("\"call\": \"$name\"")
        if (values.size == 2) append(", \"expect\": ${values[0]}")
        if (values.isNotEmpty()) append(", \"value\": ${values.last()}")
        append(", \"begin\": $begin")
        val end = end
        if (end != null && end < cut) append(", \"end\": $end, \"answer\": ${json(answer)}")
    }
}

private fun json(thing: Any?): String = when (thing) {
    is String -> "\"$thing\""
    is Map<*, *> -> thing.entries.joinToString(", ", "{", "}") { (key, value) -> "\"$key\": $value" }
    else -> thing.toString()
}
