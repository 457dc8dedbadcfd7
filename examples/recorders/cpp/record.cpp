// Records the calls of four threads to a `std::atomic`, as a state flow: record [--fault]
//
// `wait` is the `next` of a subscriber that has received the value to wait for. With --fault one call answers a stale value.
#include "recorder.hpp"

#include <array>
#include <chrono>
#include <cstdint>
#include <cstring>
#include <functional>
#include <iostream>
#include <latch>
#include <thread>

namespace {

constexpr std::uint64_t rounds = 300;

using Flow = std::atomic<std::uint64_t>;

// Lets all threads begin at once.
std::latch start{4};

// Sets values that no other caller sets.
void change(recorder::Caller &caller, Flow &flow, std::uint64_t first, bool fault) {
    start.arrive_and_wait();
    for (std::uint64_t number = 0; number < rounds; ++number) {
        std::uint64_t next = first + number;
        if (number % 3 == 0) {
            caller.begin("set", {{"value", next}});
            flow.store(next);
            caller.end(recorder::done);
        } else if (number % 3 == 1) {
            caller.begin("update");
            std::uint64_t old = flow.exchange(next);
            caller.end(recorder::update(old, next));
        } else {
            std::uint64_t expect = flow.load();
            caller.begin("compare_and_set", {{"expect", expect}, {"value", next}});
            bool is_equal = flow.compare_exchange_strong(expect, next);
            caller.end(recorder::boolean(is_equal));
        }
        flow.notify_all();
        caller.begin("value");
        std::uint64_t value = flow.load();
        caller.end(recorder::value(fault && number == rounds / 2 ? 0 : value));
        if (number % 4 == 0) std::this_thread::sleep_for(std::chrono::microseconds(20));
    }
}

// Receives values until it has received the last one. Nothing else counts the subscribers of a `std::atomic`.
void follow(recorder::Caller &caller, const Flow &flow, std::uint64_t last) {
    start.arrive_and_wait();
    caller.begin("subscribe");
    caller.end(recorder::done);
    caller.begin("next");
    std::uint64_t value = flow.load();
    caller.end(recorder::value(value));
    while (value != last) {
        caller.begin("next");
        // Another thread may set the old value again between `wait` and `load`.
        std::uint64_t received = value;
        while (received == value) {
            flow.wait(value);
            received = flow.load();
        }
        value = received;
        caller.end(recorder::value(value));
    }
    caller.begin("unsubscribe");
    caller.end(recorder::done);
}

}  // namespace

int main(int argc, char **argv) {
    bool fault = argc == 2 && std::strcmp(argv[1], "--fault") == 0;
    if (argc > 1 && !fault) {
        std::cerr << "record [--fault]\n";
        return 2;
    }
    constexpr std::uint64_t last = 9999;
    Flow flow = 0;
    recorder::Recording recording;
    std::array readers{std::thread(follow, std::ref(recording.caller("r1")), std::cref(flow), last),
                       std::thread(follow, std::ref(recording.caller("r2")), std::cref(flow), last)};
    recorder::Caller &first = recording.caller("w1");
    std::array writers{std::thread(change, std::ref(first), std::ref(flow), 1000, fault),
                       std::thread(change, std::ref(recording.caller("w2")), std::ref(flow), 2000, false)};
    for (std::thread &writer : writers) writer.join();
    first.begin("set", {{"value", last}});
    flow.store(last);
    first.end(recorder::done);
    flow.notify_all();
    for (std::thread &reader : readers) reader.join();
    recording.write(R"({"kind": "state", "initial": 0})", std::cout);
}
