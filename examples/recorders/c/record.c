/* Records the calls of four threads to a shared flow, of which this file has a small one: record [--fault]
 *
 * With --fault one call answers a stale value. */
#include "recorder.h"

#include <string.h>
#include <time.h>

enum { REPLAY = 1, ROOM = 2, ROUNDS = 300 };

/* A flow that keeps its last value for new subscribers. Emitters wait for the slowest subscriber. */
struct flow {
    pthread_mutex_t lock;
    pthread_cond_t changed;
    uint64_t kept[ROOM];
    uint64_t emitted;
    struct subscription *subscriptions;
};

/* The position is the number of values that were emitted before the next one to receive. */
struct subscription {
    uint64_t position;
    struct subscription *next;
};

static bool has_room(const struct flow *flow) {
    for (const struct subscription *it = flow->subscriptions; it != NULL; it = it->next) {
        if (flow->emitted - it->position >= ROOM) return false;
    }
    return true;
}

static void append(struct flow *flow, uint64_t value) {
    flow->kept[flow->emitted++ % ROOM] = value;
    pthread_cond_broadcast(&flow->changed);
}

static void emit(struct flow *flow, uint64_t value) {
    pthread_mutex_lock(&flow->lock);
    while (!has_room(flow)) pthread_cond_wait(&flow->changed, &flow->lock);
    append(flow, value);
    pthread_mutex_unlock(&flow->lock);
}

static bool try_emit(struct flow *flow, uint64_t value) {
    pthread_mutex_lock(&flow->lock);
    bool is_emitted = has_room(flow);
    if (is_emitted) append(flow, value);
    pthread_mutex_unlock(&flow->lock);
    return is_emitted;
}

static void subscribe(struct flow *flow, struct subscription *subscription) {
    pthread_mutex_lock(&flow->lock);
    subscription->position = flow->emitted < REPLAY ? 0 : flow->emitted - REPLAY;
    subscription->next = flow->subscriptions;
    flow->subscriptions = subscription;
    pthread_mutex_unlock(&flow->lock);
}

static uint64_t next(struct flow *flow, struct subscription *subscription) {
    pthread_mutex_lock(&flow->lock);
    while (subscription->position == flow->emitted) pthread_cond_wait(&flow->changed, &flow->lock);
    uint64_t value = flow->kept[subscription->position++ % ROOM];
    pthread_cond_broadcast(&flow->changed);
    pthread_mutex_unlock(&flow->lock);
    return value;
}

static void unsubscribe(struct flow *flow, struct subscription *subscription) {
    pthread_mutex_lock(&flow->lock);
    struct subscription **at = &flow->subscriptions;
    while (*at != subscription) at = &(*at)->next;
    *at = subscription->next;
    pthread_cond_broadcast(&flow->changed);
    pthread_mutex_unlock(&flow->lock);
}

static uint64_t subscription_count(struct flow *flow) {
    pthread_mutex_lock(&flow->lock);
    uint64_t count = 0;
    for (const struct subscription *it = flow->subscriptions; it != NULL; it = it->next) count++;
    pthread_mutex_unlock(&flow->lock);
    return count;
}

struct task {
    struct flow *flow;
    struct caller *caller;
    /* Where the threads wait until both readers have subscribed. */
    pthread_barrier_t *start;
    uint64_t first;
    bool fault;
};

/* Emits values that no other caller emits. */
static void *write_values(void *argument) {
    struct task *task = argument;
    pthread_barrier_wait(task->start);
    for (uint64_t value = task->first; value < task->first + ROUNDS; value++) {
        if (value % 3 == 0) {
            call_begin_value(task->caller, "try_emit", value);
            call_end_bool(task->caller, try_emit(task->flow, value));
        } else {
            call_begin_value(task->caller, "emit", value);
            emit(task->flow, value);
            call_end(task->caller, "\"done\"");
        }
        call_begin(task->caller, "subscription_count");
        call_end(task->caller, "%" PRIu64, subscription_count(task->flow));
    }
    return NULL;
}

/* Receives values for ever, and subscribes anew after each tenth. */
static void *read_values(void *argument) {
    struct task *task = argument;
    for (int round = 0;; round++) {
        struct subscription subscription;
        call_begin(task->caller, "subscribe");
        subscribe(task->flow, &subscription);
        call_end(task->caller, "\"done\"");
        if (round == 0) pthread_barrier_wait(task->start);
        uint64_t last = 0;
        for (int number = 0; number < 10; number++) {
            call_begin(task->caller, "next");
            uint64_t value = next(task->flow, &subscription);
            bool is_stale = task->fault && round == 0 && number == 5;
            call_end_value(task->caller, is_stale ? last : value);
            last = value;
        }
        call_begin(task->caller, "unsubscribe");
        unsubscribe(task->flow, &subscription);
        call_end(task->caller, "\"done\"");
    }
    return NULL;
}

int main(int count, char **words) {
    bool fault = count == 2 && strcmp(words[1], "--fault") == 0;
    if (count > 1 && !fault) {
        fprintf(stderr, "record [--fault]\n");
        return 2;
    }
    static struct recording recording;
    static struct flow flow = {.lock = PTHREAD_MUTEX_INITIALIZER, .changed = PTHREAD_COND_INITIALIZER};
    static pthread_barrier_t start;
    pthread_barrier_init(&start, NULL, 4);
    static struct task readers[2], writers[2];
    pthread_t reading[2], writing[2];
    for (int i = 0; i < 2; i++) {
        struct caller *reader = recording_caller(&recording, i ? "r2" : "r1");
        struct caller *writer = recording_caller(&recording, i ? "w2" : "w1");
        readers[i] = (struct task){&flow, reader, &start, 0, fault && i == 0};
        writers[i] = (struct task){&flow, writer, &start, 1000 * (i + 1), false};
        pthread_create(&reading[i], NULL, read_values, &readers[i]);
        pthread_create(&writing[i], NULL, write_values, &writers[i]);
    }
    for (int i = 0; i < 2; i++) pthread_join(writing[i], NULL);
    /* Lets the readers receive what is left. They wait for more: their last calls are pending. */
    nanosleep(&(struct timespec){.tv_nsec = 10000000}, NULL);
    recording_write(&recording, "{\"kind\": \"shared\", \"replay\": 1, \"extra\": 1, \"overflow\": \"suspend\"}", stdout);
    return 0;
}
