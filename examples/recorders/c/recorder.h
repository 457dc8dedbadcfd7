/* Records the calls that threads make of a flow, for `judge`. Copy this file into your project (C11, POSIX threads).
 *
 * Each caller has a buffer of its own. All callers raise one counter before and after each call.
 *
 *     static struct recording recording;
 *     struct caller *caller = recording_caller(&recording, "t1");
 *     call_begin_value(caller, "set", 3);
 *     flow_set(&flow, 3);
 *     call_end(caller, "\"done\"");
 *     recording_write(&recording, "{\"kind\": \"state\", \"initial\": 0}", stdout);
 */
#ifndef RECORDER_H
#define RECORDER_H

#include <assert.h>
#include <inttypes.h>
#include <pthread.h>
#include <stdarg.h>
#include <stdatomic.h>
#include <stdbool.h>
#include <stdio.h>
#include <stdlib.h>
#include <string.h>

enum { MAX_CALLERS = 64, MAX_ANSWER = 64 };

struct recorded_call {
    const char *name;
    /* The number of values, and the values: one is "value", two are "expect" and "value". */
    int count;
    uint64_t values[2];
    uint64_t begin;
    /* 0 while the call is pending. */
    uint64_t end;
    char answer[MAX_ANSWER];
};

/* A caller makes one call at a time, and has at most one subscription. */
struct caller {
    const char *name;
    atomic_uint_fast64_t *clock;
    pthread_mutex_t lock;
    struct recorded_call *calls;
    size_t length, capacity;
};

/* A recording that is all zero is empty. */
struct recording {
    atomic_uint_fast64_t clock;
    atomic_int callers;
    struct caller caller[MAX_CALLERS];
};

static inline uint64_t recording_tick(atomic_uint_fast64_t *clock) {
    return atomic_fetch_add(clock, 1) + 1;
}

/* Adds a caller. All are added before the recording is written. */
static inline struct caller *recording_caller(struct recording *recording, const char *name) {
    int number = atomic_fetch_add(&recording->callers, 1);
    assert(number < MAX_CALLERS);
    struct caller *caller = &recording->caller[number];
    caller->name = name;
    caller->clock = &recording->clock;
    pthread_mutex_init(&caller->lock, NULL);
    return caller;
}

static inline void call_add(struct caller *caller, struct recorded_call call) {
    pthread_mutex_lock(&caller->lock);
    assert(caller->length == 0 || caller->calls[caller->length - 1].end != 0);
    if (caller->length == caller->capacity) {
        caller->capacity = caller->capacity ? 2 * caller->capacity : 1024;
        caller->calls = realloc(caller->calls, caller->capacity * sizeof call);
        if (caller->calls == NULL) abort();
    }
    call.begin = recording_tick(caller->clock);
    caller->calls[caller->length++] = call;
    pthread_mutex_unlock(&caller->lock);
}

/* Begins a call. It is pending until `call_end`; a caller whose call never ends makes no other. */
static inline void call_begin(struct caller *caller, const char *name) {
    call_add(caller, (struct recorded_call){.name = name});
}

/* Begins a call with a value: "set", "emit" or "try_emit". */
static inline void call_begin_value(struct caller *caller, const char *name, uint64_t value) {
    call_add(caller, (struct recorded_call){.name = name, .count = 1, .values = {value}});
}

static inline void call_begin_compare_and_set(struct caller *caller, uint64_t expect, uint64_t value) {
    call_add(caller, (struct recorded_call){.name = "compare_and_set", .count = 2, .values = {expect, value}});
}

/* Ends the call that was begun, with an answer in the form of `printf`. */
static inline void call_end(struct caller *caller, const char *answer, ...) {
    uint64_t end = recording_tick(caller->clock);
    pthread_mutex_lock(&caller->lock);
    struct recorded_call *call = &caller->calls[caller->length - 1];
    call->end = end;
    va_list arguments;
    va_start(arguments, answer);
    int length = vsnprintf(call->answer, MAX_ANSWER, answer, arguments);
    va_end(arguments);
    assert(length < MAX_ANSWER);
    (void)length;
    pthread_mutex_unlock(&caller->lock);
}

static inline void call_end_bool(struct caller *caller, bool answer) {
    call_end(caller, answer ? "true" : "false");
}

static inline void call_end_value(struct caller *caller, uint64_t value) {
    call_end(caller, "{\"value\": %" PRIu64 "}", value);
}

/* Leaves out the call that was begun, since it changed nothing. */
static inline void call_leave_out(struct caller *caller) {
    pthread_mutex_lock(&caller->lock);
    caller->length--;
    pthread_mutex_unlock(&caller->lock);
}

/* Writes the flow and the calls up to now. Those that have not ended are pending, and their callers may still wait. */
static inline void recording_write(struct recording *recording, const char *flow, FILE *out) {
    uint64_t cut = recording_tick(&recording->clock);
    fprintf(out, "{\"flow\": %s}\n", flow);
    for (int number = 0; number < atomic_load(&recording->callers); number++) {
        struct caller *caller = &recording->caller[number];
        pthread_mutex_lock(&caller->lock);
        for (size_t i = 0; i < caller->length && caller->calls[i].begin < cut; i++) {
            struct recorded_call *call = &caller->calls[i];
            fprintf(out, "{\"by\": \"%s\", \"call\": \"%s\"", caller->name, call->name);
            if (call->count == 2) fprintf(out, ", \"expect\": %" PRIu64, call->values[0]);
            if (call->count > 0) fprintf(out, ", \"value\": %" PRIu64, call->values[call->count - 1]);
            fprintf(out, ", \"begin\": %" PRIu64, call->begin);
            if (call->end != 0 && call->end < cut) fprintf(out, ", \"end\": %" PRIu64 ", \"answer\": %s", call->end, call->answer);
            fprintf(out, "}\n");
        }
        pthread_mutex_unlock(&caller->lock);
    }
    fflush(out);
}

#endif
